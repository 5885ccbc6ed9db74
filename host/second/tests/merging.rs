//! Two drawings as one study (02, L5): worked cases, whose figures were worked out apart from this implementation;
//! answers that are a little wrong; and how often the generator comes to each edge.

use second::check::Report;
use second::drawings::case;
use second::interface::{MergedAnswer, PeriodAnswer, MOST_CELLS};
use second::levels::{Period, Workings};
use second::merged_tally::Tally;
use second::merging::{check, merge, read_both, typed_whole};
use second::mock::{levels, merged_levels};
use second::reader::read;
use second::study::Study;

mod slips;
use slips::{period_slips, STEPS};

/// Without a screen, and behind one.
const OPEN: &str = "2600 180 420 3 160 170 0 0 0 0 0 0 1 0 0";
const WALLED: &str = "6200 150 300 4 90 120 1 900 260 0 0 0 1 10 15";
const LINES: [&str; 4] = ["4 110 9 60 0", "13 140 8 90 20", "4 7 3 10 2", "15 60 20 12 12"];

fn text(segments: &[(&str, &[&str])]) -> String {
    let counts: Vec<String> = segments.iter().map(|(_, lines)| lines.len().to_string()).collect();
    let mut text = format!("{} {}\n", segments.len(), counts.join(" "));
    for (segment, lines) in segments {
        [segment].into_iter().chain(lines.iter()).for_each(|line| text += &format!("{line}\n"));
    }
    text
}

fn yard() -> String {
    text(&[(OPEN, &LINES[..1]), (WALLED, &LINES[1..3])])
}

fn main_line() -> String {
    text(&[(WALLED, &[]), (OPEN, &LINES[3..])])
}

/// So many segments with all of so many entries in the last of them.
fn sized(segments: usize, entries: usize) -> String {
    let mut list: Vec<(&str, &[&str])> = vec![(OPEN, &[]); segments];
    let lines = vec![LINES[0]; entries];
    list[segments - 1].1 = &lines;
    text(&list)
}

fn study(text: &str) -> Study {
    read(text.as_bytes()).expect("a good text")
}

/// Entry counts by segment.
fn counts(study: &Study) -> Vec<usize> {
    let count = |position| study.entries.iter().filter(|(segment, _)| *segment == position).count();
    (0..study.segments.len()).map(count).collect()
}

fn bare(study: &Study) -> [Option<i64>; 2] {
    [Period::Day, Period::Night].map(|period| Workings::of(study).bare_level(period))
}

fn bytes<'a>(first: &'a str, second: &'a str) -> [&'a [u8]; 2] {
    [first.as_bytes(), second.as_bytes()]
}

/// Cells before and after the mock's answer, and the answer.
fn answered(texts: [&[u8]; 2], cells: usize, turned: bool) -> (Vec<i32>, Vec<i32>, MergedAnswer) {
    let before: Vec<i32> = (0..cells as i32).map(|i| 1000 + i).collect();
    let mut after = before.clone();
    let answer = merged_levels(texts, &mut after, turned);
    (before, after, answer)
}

/// Number, text and line of an answer that is allowed.
fn outcome(first: &str, second: &str, cells: usize) -> (u32, u32, u32) {
    let texts = bytes(first, second);
    let (before, after, answer) = answered(texts, cells, false);
    check(texts, &before, &after, &answer).expect("an allowed answer");
    (answer.refusal, answer.text, answer.line)
}

fn figures(level: i32, met: u8) -> PeriodAnswer {
    PeriodAnswer { silent: 0, level, close: 0, met }
}

#[test]
fn the_worked_case_and_its_turn() {
    let (first, second) = (study(&yard()), study(&main_line()));
    let one = merge(&first, &second).expect("a small study");
    let other = merge(&second, &first).expect("a small study");
    assert_eq!((counts(&one), counts(&other)), (vec![1, 2, 0, 1], vec![0, 1, 1, 2]));
    assert_eq!(one.segments, [first.segments[0], first.segments[1], second.segments[0], second.segments[1]]);
    assert_eq!(other.segments, [second.segments[0], second.segments[1], first.segments[0], first.segments[1]]);
    assert_eq!(bare(&one), [Some(65_860_718), Some(65_348_996)]);
    assert_eq!(bare(&other), bare(&one));
    for (first, second) in [(yard(), main_line()), (main_line(), yard())] {
        let texts = bytes(&first, &second);
        let (before, after, answer) = answered(texts, 8, false);
        let right = MergedAnswer { day: figures(659, 0), night: figures(654, 1), ..MergedAnswer::default() };
        assert_eq!(answer, right);
        check(texts, &before, &after, &answer).expect("an allowed answer");
    }
}

#[test]
fn a_study_without_entries_adds_its_segments() {
    let silent = Study { entries: Vec::new(), ..study(&main_line()) };
    let yard = study(&yard());
    assert_eq!(counts(&merge(&yard, &silent).expect("small")), [1, 2, 0, 0]);
    assert_eq!(counts(&merge(&silent, &yard).expect("small")), [0, 0, 1, 2]);
    assert_eq!(counts(&merge(&silent, &silent).expect("small")), [0, 0, 0, 0]);
    for (first, second) in [(&yard, &Study::default()), (&Study::default(), &yard)] {
        assert_eq!(merge(first, second).expect("small"), yard);
    }
    // A text is another matter: it has an entry, or it is refused.
    let without = text(&[(WALLED, &[]), (OPEN, &[])]);
    assert_eq!(outcome(&without, &main_line(), MOST_CELLS), (13, 1, 1));
    assert_eq!(outcome(&main_line(), &without, MOST_CELLS), (13, 2, 1));
}

#[test]
fn limits_of_both_together() {
    let number = |first: [usize; 2], second: [usize; 2]| {
        let (first, second) = (sized(first[0], first[1]), sized(second[0], second[1]));
        let merged = merge(&study(&first), &study(&second));
        let expected = merged.as_ref().err().copied().unwrap_or(0);
        assert_eq!(outcome(&first, &second, MOST_CELLS), (expected, 0, 0));
        merged.map(|study| (study.segments.len(), study.entries.len()))
    };
    assert_eq!(number([12, 48], [12, 48]), Ok((24, 96)));
    assert_eq!(number([12, 48], [13, 1]), Err(21));
    assert_eq!(number([12, 48], [12, 49]), Err(22));
    assert_eq!(number([12, 48], [13, 49]), Err(21));
    assert_eq!(number([24, 1], [1, 1]), Err(21));
    assert_eq!(number([1, 96], [1, 1]), Err(22));
    assert_eq!(number([23, 1], [1, 95]), Ok((24, 96)));
    assert_eq!(number([24, 96], [24, 96]), Err(21));
}

#[test]
fn refusals_in_their_order() {
    let good = yard();
    let standing = text(&[(OPEN, &["4 0 9 60 0"])]);
    let far = text(&[(&OPEN.replacen("2600", "999", 1), &LINES[..1])]);
    assert_eq!(outcome(&good, &good, 12), (0, 0, 0));
    assert_eq!(outcome(&standing, &far, 12), (9, 1, 3));
    assert_eq!(outcome(&far, &standing, 12), (1, 1, 2));
    assert_eq!(outcome(&good, &far, 12), (1, 2, 2));
    assert_eq!(outcome(&good, "", 12), (13, 2, 1));
    assert_eq!(outcome(&good, &"9".repeat(16_385), 12), (12, 2, 0));
    assert_eq!(outcome(&"9".repeat(16_385), "", 12), (12, 1, 0));
    // A refused text before the limits, these before the cells.
    let (wide, full) = (sized(24, 1), sized(1, 96));
    assert_eq!(outcome(&wide, &far, 0), (1, 2, 2));
    assert_eq!(outcome(&full, &standing, 0), (9, 2, 3));
    assert_eq!(outcome(&full, &wide, 0), (21, 0, 0));
    assert_eq!(outcome(&full, &good, 0), (22, 0, 0));
    assert_eq!(outcome(&good, &main_line(), 8), (0, 0, 0));
    assert_eq!(outcome(&good, &main_line(), 7), (24, 0, 0));
    assert_eq!(outcome(&good, &main_line(), 6), (24, 0, 0));
    assert_eq!(outcome(&good, &main_line(), 0), (24, 0, 0));
}

#[test]
fn typed_whole_it_is_the_same_study() {
    let (first, second) = (yard(), main_line());
    let whole = typed_whole(bytes(&first, &second));
    let lines = format!("{OPEN}\n{}\n{WALLED}\n{}\n{}\n{WALLED}\n{OPEN}\n{}\n", LINES[0], LINES[1], LINES[2], LINES[3]);
    assert_eq!(String::from_utf8(whole.clone()).expect("ASCII"), format!("4 1 2 0 1\n{lines}"));
    assert_eq!(read(&whole), Ok(merge(&study(&first), &study(&second)).expect("a small study")));
}

fn free(report: &Report) -> bool {
    report.ground_free_shown + report.ground_free_hidden + report.total_free > 0
}

#[test]
fn pairs_typed_whole_are_the_same_studies() {
    let mut merged = 0;
    for index in 0..1000 {
        let case = case(31, index);
        if let (0, Ok(study)) = read_both(case.texts()) {
            assert_eq!(read(&typed_whole(case.texts())), Ok(study));
            merged += 1;
        }
    }
    assert!(merged > 300, "{merged}");
}

#[test]
fn both_choices_of_free_marks_are_allowed() {
    let mut apart = 0;
    for index in 0..2000 {
        let case = case(32, index);
        let answers = [false, true].map(|turned| {
            let (before, after, answer) = answered(case.texts(), case.cells, turned);
            check(case.texts(), &before, &after, &answer).expect("an allowed answer");
            answer
        });
        apart += (answers[0] != answers[1]) as u32;
    }
    assert!(apart > 200, "{apart}");
}

/// Answers that differ from a given one in one place.
fn slips(answer: MergedAnswer) -> Vec<MergedAnswer> {
    let mut list = Vec::new();
    for step in STEPS {
        list.push(MergedAnswer { refusal: answer.refusal.wrapping_add(step), ..answer });
        list.push(MergedAnswer { text: answer.text.wrapping_add(step), ..answer });
        list.push(MergedAnswer { line: answer.line.wrapping_add(step), ..answer });
    }
    list.extend(period_slips(answer.day).into_iter().map(|day| MergedAnswer { day, ..answer }));
    list.extend(period_slips(answer.night).into_iter().map(|night| MergedAnswer { night, ..answer }));
    list
}

#[test]
fn an_answer_a_little_wrong_is_stopped() {
    let mut tried = 0;
    for index in 0..400 {
        let case = case(33, index);
        let (before, after, answer) = answered(case.texts(), case.cells, false);
        let report = check(case.texts(), &before, &after, &answer).expect("an allowed answer");
        if free(&report) {
            continue;
        }
        for wrong in slips(answer) {
            assert!(check(case.texts(), &before, &after, &wrong).is_err(), "{wrong:?}");
            tried += 1;
        }
        for place in (0..after.len()).step_by(7).chain(after.len().checked_sub(1)) {
            let mut cells = after.clone();
            cells[place] += 1;
            assert!(check(case.texts(), &before, &cells, &answer).is_err(), "cell {place}");
            tried += 1;
        }
    }
    assert!(tried > 5000, "{tried}");
}

#[test]
fn a_case_is_the_same_each_time() {
    for index in [0, 7, 4000] {
        let (one, again) = (case(34, index), case(34, index));
        assert!(one.texts == again.texts && one.cells == again.cells && one.kind == again.kind);
        assert!(one.texts != case(34, index + 1).texts && one.texts != case(35, index).texts);
    }
}

/// The pairs of the gate's run, `host/differential.sh 1 20000`.
#[test]
fn every_edge_comes_up() {
    let mut tally = Tally::default();
    for index in 0..5000 {
        let case = case(1, index);
        let (before, after, answer) = answered(case.texts(), case.cells, false);
        let report = check(case.texts(), &before, &after, &answer).expect("an allowed answer");
        tally.add(&case, &answer, &report);
        if answer.refusal == 0 {
            let reported = |text| levels(text, &mut [0; MOST_CELLS], false).periods().map(|period| period.figure());
            tally.add_parts(&answer, case.texts().map(reported));
        }
    }
    assert!(tally.kinds.len() == 4 && tally.kinds.values().all(|&count| count > 300));
    assert!(tally.answered > 1500);
    for (name, count) in &tally.edges {
        assert!(*count > 20, "{name}: {count}");
    }
    // Every refusal of a text in either place, and those of both together.
    let refused = |text, number| tally.refused.get(&(text, number)).copied().unwrap_or(0);
    for number in 1..=13 {
        assert!(refused(1, number) > 5 && refused(2, number) > 5, "{number}");
    }
    assert!([21, 22, 24].iter().all(|&number| refused(0, number) > 200));
    assert_eq!(tally.refused.len(), 2 * 13 + 3);
    assert!(tally.all.total_required > 50 && tally.all.total_free > 50);
    assert!(tally.all.taken > 100 && tally.all.not_taken > 100);
    assert!(tally.combined.iter().all(|&count| count > 300), "{:?}", tally.combined);
}
