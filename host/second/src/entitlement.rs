//! Whether an observed answer of railnoise_entitlement is one that 01 and 02's L2 allow.
//!
//! A study's reported levels may hang on free marks: on those of its ground steps, where a segment has one
//! mark for both periods, and on each period's total's. So a study has a list of levels that it may report,
//! mostly one pair. An answer is allowed when some choice from the four lists explains all of it.
//! Studies choose apart from each other, also where one text is given twice: nothing in 01 or 02 says that
//! equal studies are marked alike.

use crate::choices::{distinct, possible_figures, possible_grounds, possible_sums};
use crate::interface::{Combined, EntitlementAnswer, EntitlementPeriod};
use crate::levels::{total_of, Period, Rounded, Workings, PERIODS};
use crate::reader::{read, Refusal};
use crate::study::Study;

/// Tenths; none where silent.
pub type Level = Option<i64>;

/// By day and by night.
pub type Levels = [Level; 2];

/// 1.0 dB in tenths.
const STEP: i64 = 10;

/// A set of lines: its study's text, which does not count where the set is marked as empty.
#[derive(Clone, Copy, Debug)]
pub struct Lines<'a> {
    pub text: &'a [u8],
    pub empty: bool,
}

/// In the order of the C function.
pub type Request<'a> = [Lines<'a>; 4];

pub const ALTERED_BEFORE: usize = 0;
pub const ALTERED_AFTER: usize = 1;
pub const OTHER_BEFORE: usize = 2;
pub const OTHER_AFTER: usize = 3;

/// Every pair of levels that a program may report for the study.
pub fn possible_levels(study: &Study) -> Vec<Levels> {
    let workings = Workings::of(study);
    let mut pairs = Vec::new();
    for [day, night] in possible_sums(&workings, &possible_grounds(&workings)) {
        let nights = possible_figures(night);
        pairs.extend(possible_figures(day).into_iter().flat_map(|day| nights.iter().map(move |&night| [day, night])));
    }
    distinct(pairs)
}

/// At least 1.0 dB above: silent is so far below every figure, and exceeds nothing itself.
pub fn exceeds(level: Level, other: Level) -> bool {
    match (level, other) {
        (None, _) => false,
        (Some(_), None) => true,
        (Some(level), Some(other)) => level - other >= STEP,
    }
}

/// A period's conditions and verdict, from what is shown and from the other lines after the works.
pub fn judged(period: Period, prevailing: Combined, relevant: Combined, other_after: Level) -> EntitlementPeriod {
    let level = relevant.figure();
    let reaches = level.is_some_and(|figure| period.met(figure));
    let rises = exceeds(level, prevailing.figure());
    let contributes = exceeds(level, other_after);
    EntitlementPeriod {
        prevailing,
        relevant,
        reaches: reaches as u8,
        rises: rises as u8,
        contributes: contributes as u8,
        entitled: (reaches && rises && contributes) as u8,
    }
}

/// The prevailing and the relevant level by Chart 9, from the reported levels of the four sets in a period.
pub fn combinations(levels: [Level; 4]) -> [Option<Rounded>; 2] {
    [[ALTERED_BEFORE, OTHER_BEFORE], [ALTERED_AFTER, OTHER_AFTER]]
        .map(|pair| total_of(pair.into_iter().filter_map(|set| levels[set])))
}

/// A combination as it may be shown: with either mark where that is free.
fn shown(total: Option<Rounded>) -> Vec<Combined> {
    let Some(total) = total else {
        return vec![Combined::SILENT];
    };
    let with_mark = |(marked, figure)| Combined { silent: 0, level: figure as i32, close: marked as u8 };
    total.choices().into_iter().map(with_mark).collect()
}

/// What may be shown of a period, given the reported levels of the four sets in it.
fn periods_allowed(period: Period, levels: [Level; 4]) -> Vec<EntitlementPeriod> {
    let [prevailing, relevant] = combinations(levels).map(shown);
    let pairs = prevailing.iter().flat_map(|&before| relevant.iter().map(move |&after| (before, after)));
    pairs.map(|(before, after)| judged(period, before, after, levels[OTHER_AFTER])).collect()
}

/// The four sets' levels in one period.
pub fn in_period(levels: &[Levels; 4], period: Period) -> [Level; 4] {
    levels.map(|of_set| of_set[period as usize])
}

/// Whether these reported levels of the four sets lead to this answer.
pub fn explains(levels: &[Levels; 4], answer: &EntitlementAnswer) -> bool {
    let answered = (answer.refusal, answer.text, answer.line) == (0, 0, 0);
    let shown = answer.periods();
    let periods = PERIODS
        .into_iter()
        .all(|period| periods_allowed(period, in_period(levels, period)).contains(&shown[period as usize]));
    answered && periods && answer.entitled == (shown[0].entitled | shown[1].entitled)
}

/// Reported levels that explain an answer, and among how many choices they were found.
#[derive(Clone, Copy, Debug)]
pub struct Explanation {
    pub levels: [Levels; 4],
    pub choices: usize,
}

/// The levels that each set may report; else the place, 1 to 4, and the refusal of the first refused text.
fn read_all(request: &Request) -> Result<[Vec<Levels>; 4], (u32, Refusal)> {
    let mut lists = [const { Vec::new() }; 4];
    for (set, lines) in request.iter().enumerate() {
        lists[set] = if lines.empty {
            vec![[None; 2]]
        } else {
            possible_levels(&read(lines.text).map_err(|refusal| (set as u32 + 1, refusal))?)
        };
    }
    Ok(lists)
}

/// The choice of this number, from all that the four lists offer.
fn choice(lists: &[Vec<Levels>; 4], number: usize) -> [Levels; 4] {
    let mut rest = number;
    lists.each_ref().map(|list| {
        let chosen = list[rest % list.len()];
        rest /= list.len();
        chosen
    })
}

/// Whether 01 and 02 allow this answer to the request: what explains it, nothing where it is a right refusal, or
/// words on what was expected.
pub fn check(request: &Request, answer: &EntitlementAnswer) -> Result<Option<Explanation>, String> {
    let lists = match read_all(request) {
        Ok(lists) => lists,
        Err((text, refusal)) => {
            let expected = EntitlementAnswer::refused(text, refusal);
            return if *answer == expected { Ok(None) } else { Err(format!("expected {expected:?}")) };
        }
    };
    let choices = lists.iter().map(Vec::len).product();
    let explained = (0..choices).map(|number| choice(&lists, number)).find(|levels| explains(levels, answer));
    let Some(levels) = explained else {
        let first = choice(&lists, 0);
        let periods = PERIODS.map(|period| periods_allowed(period, in_period(&first, period)));
        return Err(format!("none of {choices} choices explains it; with {first:?} it would be one of {periods:?}"));
    };
    Ok(Some(Explanation { levels, choices }))
}

#[cfg(test)]
mod tests {
    use super::*;

    #[test]
    fn a_decibel_and_silence() {
        assert!(exceeds(Some(610), Some(600)) && !exceeds(Some(609), Some(600)));
        assert!(exceeds(Some(-10), Some(-20)) && exceeds(Some(-600), None));
        assert!(!exceeds(None, Some(-600)) && !exceeds(None, None));
    }

    #[test]
    fn differences_that_are_always_marked() {
        // Tenths apart and tenths added.
        for (apart, added) in [(87, 6), (193, 1), (194, 1)] {
            for louder in [-100, 300, 670, 900] {
                let total = total_of([louder, louder - apart].into_iter()).expect("two levels");
                assert_eq!(total.choices(), [(true, louder + added)], "{apart}");
            }
        }
    }
}
