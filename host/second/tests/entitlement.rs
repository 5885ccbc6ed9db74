//! Entitlement (02, L2): worked cases, whose figures were worked out apart from this implementation, answers that
//! are a little wrong, and marks that are free.

use second::entitlement::{check, Lines, Request};
use second::interface::{Combined, EntitlementAnswer, EntitlementPeriod};
use second::mock::{self, entitlement};
use second::reader::Refusal;

/// A set without lines.
const NONE: Lines = Lines { text: b"", empty: true };

fn lines(text: &str) -> Lines<'_> {
    Lines { text: text.as_bytes(), empty: false }
}

/// The segment of the worked cases, with a Table 1 reading and one or two train entries.
fn study(reading: i32, entries: &[&str]) -> String {
    let segment = format!("2600 180 420 3 160 170 0 0 0 0 {reading} 0 1 0 0");
    format!("1 {}\n{segment}\n{}\n", entries.len(), entries.join("\n"))
}

/// The same level by day and by night, 576 to 726 tenths: 300 trains by day are as loud as 100 by night.
fn both(level: i32) -> String {
    study(level - 576, &["13 60 3 300 100"])
}

/// Likewise, 528 to 678 tenths.
fn quiet(level: i32) -> String {
    study(level - 528, &["13 60 1 300 100"])
}

fn reported(text: &str) -> [Option<i64>; 2] {
    let answer = mock::levels(text.as_bytes(), &mut [0; 192], false);
    assert_eq!((answer.refusal, answer.line), (0, 0), "{text}");
    answer.periods().map(|period| period.figure())
}

const SILENT: Combined = Combined::SILENT;

fn clear(level: i32) -> Combined {
    Combined { silent: 0, level, close: 0 }
}

fn marked(level: i32) -> Combined {
    Combined { silent: 0, level, close: 1 }
}

const YES: u8 = 1;
const NO: u8 = 0;

/// A period as it is to be shown; its verdict follows from its conditions.
fn period(prevailing: Combined, relevant: Combined, conditions: [u8; 3]) -> EntitlementPeriod {
    let [reaches, rises, contributes] = conditions;
    let entitled = (conditions == [YES; 3]) as u8;
    EntitlementPeriod { prevailing, relevant, reaches, rises, contributes, entitled }
}

fn answered(day: EntitlementPeriod, night: EntitlementPeriod) -> EntitlementAnswer {
    EntitlementAnswer { day, night, entitled: day.entitled | night.entitled, ..EntitlementAnswer::default() }
}

fn allowed(request: &Request, answer: EntitlementAnswer) {
    if let Err(words) = check(request, &answer) {
        panic!("{answer:?} is not allowed: {words}");
    }
}

fn not_allowed(request: &Request, answer: EntitlementAnswer) {
    assert!(check(request, &answer).is_err(), "{answer:?} is allowed");
}

/// The one answer: the mock gives it, however it takes free marks.
fn only(request: &Request, expected: EntitlementAnswer) {
    allowed(request, expected);
    for turned in [false, true] {
        assert_eq!(entitlement(request, turned), expected);
    }
}

#[test]
fn the_worked_house() {
    let texts = ["4 110 9 60 0", "4 120 12 70 6", "13 140 8 90 20"].map(|entry| study(0, &[entry]));
    assert_eq!(
        texts.each_ref().map(|text| reported(text)),
        [[Some(643), None], [Some(671), Some(612)], [Some(638), Some(621)]]
    );
    let [before, after, other] = texts.each_ref().map(|text| lines(text));
    let day = period(clear(671), clear(688), [YES, YES, YES]);
    let night = period(clear(621), clear(647), [YES, YES, YES]);
    only(&[before, after, other, other], answered(day, night));
    let day = period(clear(671), clear(671), [NO, NO, YES]);
    let night = period(clear(621), clear(612), [NO, NO, YES]);
    only(&[before, after, other, NONE], answered(day, night));
    let day = period(clear(671), clear(638), [NO, NO, NO]);
    let night = period(clear(621), clear(621), [NO, NO, NO]);
    only(&[before, NONE, other, other], answered(day, night));
}

#[test]
fn combinations_that_are_always_marked() {
    let pairs = [(both(670), both(583), 676), (both(721), quiet(528), 722), (both(722), quiet(528), 723)];
    for (louder, quieter, total) in pairs {
        for [altered, other] in [[&louder, &quieter], [&quieter, &louder]] {
            let request = [lines(altered), NONE, lines(other), NONE];
            let shown = period(marked(total), SILENT, [NO, NO, NO]);
            only(&request, answered(shown, shown));
            for wrong in [clear(total), clear(total - 1), marked(total - 1), marked(total + 1)] {
                not_allowed(&request, answered(shown, period(wrong, SILENT, [NO, NO, NO])));
            }
        }
    }
}

#[test]
fn altered_lines_alone() {
    let (before, after) = (both(660), both(670));
    let day = period(clear(660), clear(670), [NO, YES, YES]);
    let night = period(clear(660), clear(670), [YES, YES, YES]);
    only(&[lines(&before), lines(&after), NONE, NONE], answered(day, night));
}

#[test]
fn other_lines_alone_do_not_contribute() {
    let (altered, other) = (both(600), both(675));
    let shown = period(clear(600), clear(675), [YES, YES, NO]);
    only(&[lines(&altered), NONE, NONE, lines(&other)], answered(shown, shown));
}

#[test]
fn example_1_of_the_memorandum() {
    let other_before = study(44, &["13 60 3 631 48"]);
    let altered_after = study(50, &["13 60 3 339 27"]);
    let other_after = study(40, &["13 60 3 1072 45"]);
    assert_eq!(reported(&other_before), [Some(652), Some(588)]);
    assert_eq!(reported(&altered_after), [Some(631), Some(569)]);
    assert_eq!(reported(&other_after), [Some(671), Some(581)]);
    let request = [NONE, lines(&altered_after), lines(&other_before), lines(&other_after)];
    let day = period(clear(652), clear(686), [YES, YES, YES]);
    // By night the sum is 60.5516 dB, in the band where the mark is free; the tenth is the same.
    for relevant in [clear(606), marked(606)] {
        allowed(&request, answered(day, period(clear(588), relevant, [NO, YES, YES])));
    }
    // The memorandum prints 68.5, and 59.6, by which the night would not rise.
    let night = period(clear(588), clear(606), [NO, YES, YES]);
    not_allowed(&request, answered(period(clear(652), clear(685), [YES, YES, YES]), night));
    not_allowed(&request, answered(day, period(clear(588), clear(596), [NO, NO, YES])));
    not_allowed(&request, answered(day, period(clear(588), clear(606), [NO, NO, YES])));
}

#[test]
fn nine_tenths_are_no_decibel() {
    let (before, after) = (both(661), both(670));
    let request = [lines(&before), lines(&after), NONE, NONE];
    let day = period(clear(661), clear(670), [NO, NO, YES]);
    let night = period(clear(661), clear(670), [YES, NO, YES]);
    only(&request, answered(day, night));
    not_allowed(&request, answered(day, period(clear(661), clear(670), [YES, YES, YES])));
    not_allowed(&request, answered(period(clear(661), clear(670), [NO, YES, YES]), night));
    // Altered lines 5.9 dB below the others add 0.9935 dB, 6.3 dB below them 0.9146 dB.
    let (enough, too_little, other) = (both(601), both(597), both(660));
    let request = [NONE, lines(&enough), NONE, lines(&other)];
    let day = period(SILENT, clear(670), [NO, YES, YES]);
    only(&request, answered(day, period(SILENT, clear(670), [YES, YES, YES])));
    not_allowed(&request, answered(day, period(SILENT, clear(670), [YES, YES, NO])));
    let request = [NONE, lines(&too_little), NONE, lines(&other)];
    let day = period(SILENT, clear(669), [NO, YES, NO]);
    only(&request, answered(day, period(SILENT, clear(669), [YES, YES, NO])));
    not_allowed(&request, answered(day, period(SILENT, clear(669), [YES, YES, YES])));
}

#[test]
fn what_contributes_is_judged_by_the_other_lines_after() {
    let [altered, before, after] = [both(597), both(580), both(660)];
    let request = [NONE, lines(&altered), lines(&before), lines(&after)];
    let day = period(clear(580), clear(669), [NO, YES, NO]);
    only(&request, answered(day, period(clear(580), clear(669), [YES, YES, NO])));
    not_allowed(&request, answered(day, period(clear(580), clear(669), [YES, YES, YES])));
    let [altered, before, after] = [both(640), both(665), both(600)];
    let request = [NONE, lines(&altered), lines(&before), lines(&after)];
    let day = period(clear(665), clear(655), [NO, NO, YES]);
    only(&request, answered(day, period(clear(665), clear(655), [YES, NO, YES])));
    not_allowed(&request, answered(day, period(clear(665), clear(655), [YES, NO, NO])));
}

#[test]
fn each_period_has_its_own_limit_on_whole_decibels() {
    for (level, day, night) in [(674, NO, YES), (675, YES, YES), (625, NO, YES), (624, NO, NO)] {
        let text = both(level);
        let request = [NONE, lines(&text), NONE, NONE];
        let shown = |reaches| period(SILENT, clear(level), [reaches, YES, YES]);
        only(&request, answered(shown(day), shown(night)));
        not_allowed(&request, answered(shown(1 - day), shown(night)));
        not_allowed(&request, answered(shown(day), shown(1 - night)));
    }
}

#[test]
fn a_set_marked_as_empty_is_not_read() {
    let texts = [both(660), both(676), both(630), both(640)];
    let unmarked = texts.each_ref().map(|text| lines(text));
    let faulty = Lines { text: b"1 1\n", empty: true };
    for set in 0..4 {
        let mut request = unmarked;
        request[set].empty = true;
        let mut without = unmarked;
        without[set] = NONE;
        let right = entitlement(&without, false);
        only(&request, right);
        not_allowed(&request, entitlement(&unmarked, false));
        request[set] = faulty;
        only(&request, right);
        not_allowed(&request, entitlement(&[0, 1, 2, 3].map(|s| Lines { empty: false, ..request[s] }), false));
    }
    let shown = period(SILENT, SILENT, [NO, NO, NO]);
    only(&[faulty; 4], answered(shown, shown));
}

#[test]
fn the_mark_shown_is_the_combinations() {
    // By day entries of 57.6 and 48.9 dB: the study's own total is marked.
    let text = study(0, &["13 60 3 300 0", "13 60 3 41 0"]);
    assert_eq!(reported(&text), [Some(582), None]);
    assert_eq!(mock::levels(text.as_bytes(), &mut [0; 4], false).day.close, 1);
    let night = period(SILENT, SILENT, [NO, NO, NO]);
    let request = [NONE, lines(&text), NONE, NONE];
    only(&request, answered(period(SILENT, clear(582), [NO, YES, YES]), night));
    not_allowed(&request, answered(period(SILENT, marked(582), [NO, YES, YES]), night));
    let request = [lines(&text), NONE, lines(&text), NONE];
    only(&request, answered(period(clear(612), SILENT, [NO, NO, NO]), night));
    not_allowed(&request, answered(period(marked(612), SILENT, [NO, NO, NO]), night));
}

#[test]
fn silent_exceeds_nothing_and_every_figure_exceeds_silent() {
    let day_only = study(0, &["13 60 3 300 0"]);
    let low = "1 1\n30000 0 100 10 5 5 0 0 0 0 0 -30 0 0 0\n8 20 1 1 1\n";
    let silent = period(SILENT, SILENT, [NO, NO, NO]);
    let request = [lines(&day_only), lines(&day_only), NONE, NONE];
    let day = period(clear(576), clear(576), [NO, NO, YES]);
    only(&request, answered(day, silent));
    not_allowed(&request, answered(day, period(SILENT, SILENT, [NO, YES, NO])));
    not_allowed(&request, answered(day, period(SILENT, SILENT, [NO, NO, YES])));
    for wrong in [clear(0), Combined { level: -9999, ..SILENT }, Combined { close: 1, ..SILENT }] {
        not_allowed(&request, answered(day, period(wrong, SILENT, [NO, NO, NO])));
        not_allowed(&request, answered(day, period(SILENT, wrong, [NO, NO, NO])));
    }
    // Far below zero, and still above silent.
    let [Some(level), Some(by_night)] = reported(low) else { panic!("trains in both periods") };
    assert!(level < -300 && by_night == level + 48);
    let shown = |level: i64| period(SILENT, clear(level as i32), [NO, YES, YES]);
    only(&[NONE, lines(low), NONE, NONE], answered(shown(level), shown(by_night)));
    let shown = |level: i64| period(clear(level as i32), SILENT, [NO, NO, NO]);
    only(&[NONE, NONE, lines(low), NONE], answered(shown(level), shown(by_night)));
}

#[test]
fn the_first_refused_text_is_named() {
    let good = both(670);
    let standing = study(0, &["13 0 3 300 100"]);
    let [good, standing, short] = [lines(&good), lines(&standing), lines("1 1\n")];
    let refused = |text, number, line| EntitlementAnswer::refused(text, Refusal { number, line });
    let request = [good, standing, short, good];
    only(&request, refused(2, 9, 3));
    for (text, number, line) in [(1, 9, 3), (3, 9, 3), (0, 9, 3), (3, 13, 2), (2, 13, 2), (2, 9, 2), (2, 13, 3)] {
        not_allowed(&request, refused(text, number, line));
    }
    let right = refused(2, 9, 3);
    not_allowed(&request, EntitlementAnswer { entitled: 1, ..right });
    not_allowed(&request, EntitlementAnswer { day: EntitlementPeriod::default(), ..right });
    not_allowed(&request, EntitlementAnswer { night: period(SILENT, clear(670), [NO, NO, NO]), ..right });
    not_allowed(&request, entitlement(&[good, good, good, good], false));
    for set in 0..4 {
        let mut request = [good; 4];
        request[set] = short;
        only(&request, refused(set as u32 + 1, 13, 2));
        // What comes before it is not looked at.
        request[..set].fill(Lines { empty: true, ..standing });
        only(&request, refused(set as u32 + 1, 13, 2));
    }
    let long = "9".repeat(16_385);
    only(&[good, good, good, lines("")], refused(4, 13, 1));
    only(&[NONE, NONE, lines(&long), good], refused(3, 12, 0));
    not_allowed(&[good; 4], refused(0, 0, 0));
}

#[test]
fn figure_and_conditions_follow_a_free_mark() {
    // 2.2 dB apart they add 2.0481 dB, so 2.0 or, marked, 2.1.
    let [before, altered, other] = [both(681), both(670), both(648)];
    let request = [lines(&before), lines(&altered), NONE, lines(&other)];
    let choices = [period(clear(681), clear(690), [YES, NO, YES]), period(clear(681), marked(691), [YES, YES, YES])];
    for day in choices {
        choices.iter().for_each(|&night| allowed(&request, answered(day, night)));
    }
    let day = choices[0];
    for (relevant, rises) in [(clear(690), YES), (marked(691), NO), (marked(690), NO), (clear(691), YES)] {
        not_allowed(&request, answered(day, period(clear(681), relevant, [YES, rises, YES])));
    }
    let house = EntitlementAnswer { entitled: 0, ..answered(day, choices[1]) };
    not_allowed(&request, house);
}

#[test]
fn a_ground_mark_is_one_for_both_periods() {
    // 1,200 microdecibels below a tie.
    let text = "1 1\n25000 0 348 1 180 180 0 0 0 0 0 0 0 0 0\n1 100 1 300 100\n";
    let [Some(level), Some(by_night)] = reported(text) else { panic!("trains in both periods") };
    assert_eq!(level, by_night);
    let shown = |taken: i32| period(SILENT, clear(level as i32 + taken), [NO, YES, YES]);
    let request = [NONE, lines(text), NONE, NONE];
    allowed(&request, answered(shown(0), shown(0)));
    allowed(&request, answered(shown(1), shown(1)));
    for (day, night) in [(0, 1), (1, 0), (0, -1), (-1, -1), (2, 2)] {
        not_allowed(&request, answered(shown(day), shown(night)));
    }
    not_allowed(&request, answered(period(SILENT, marked(level as i32 + 1), [NO, YES, YES]), shown(1)));
}

#[test]
fn totals_choose_apart_by_period_and_by_place() {
    // Entries 2.2 dB apart: each period's total is 59.6 or, marked, 59.7 dB.
    let text = study(0, &["13 60 3 300 100", "13 60 3 182 60"]);
    let shown = |before: i32, after: i32| period(clear(before), clear(after), [NO, NO, NO]);
    let request = [NONE, NONE, lines(&text), lines(&text)];
    for [day, night] in [[596, 596], [596, 597], [597, 596], [597, 597]] {
        allowed(&request, answered(shown(day, day), shown(night, night)));
        // One text given twice: 01 and 02 do not say that it is marked alike.
        allowed(&request, answered(shown(day, night), shown(night, day)));
    }
    not_allowed(&request, answered(shown(596, 596), shown(595, 596)));
    not_allowed(&request, answered(shown(598, 596), shown(596, 596)));
}
