//! Answers for the highest speed by a rule that is a little wrong.

use second::entitlement::Level;
use second::interface::SpeedAnswer;
use second::levels::{whole_decibels, Period, Rounded};
use second::reader::{read, Refusal};
use second::speed::{place_of, stays_below, Passing, Request, ENTRY_NUMBER, NO_SPEED, SPEEDS};
use second::study::Study;

/// How an answer is come to, each part of it to be got wrong.
#[derive(Clone, Copy)]
pub struct Rule {
    pub name: &'static str,
    place: fn(&Study, u32) -> Option<usize>,
    period: fn(Period) -> Period,
    figure: fn(Rounded) -> i64,
    below: fn(Level, i32) -> bool,
    /// What is made of the answer, given the speed that is typed in the entry's line.
    amended: fn(SpeedAnswer, u32) -> SpeedAnswer,
    /// The refusal of a number that no entry has.
    number: u32,
}

pub const RIGHT: Rule = Rule {
    name: "right",
    place: place_of,
    period: |period| period,
    figure: |total| total.choices()[0].1,
    below: stays_below,
    amended: |answer, _| answer,
    number: ENTRY_NUMBER,
};

impl Rule {
    pub fn answer(&self, request: &Request) -> SpeedAnswer {
        let study = match read(request.text) {
            Err(refusal) => return SpeedAnswer::refused(refusal),
            Ok(study) => study,
        };
        let Some(place) = (self.place)(&study, request.entry) else {
            return SpeedAnswer::refused(Refusal { number: self.number, line: 0 });
        };
        let passing = Passing::of(&study, place, (self.period)(request.period));
        let below = |speed: &i32| (self.below)(passing.totals(*speed)[0].map(self.figure), request.limit);
        let none = SpeedAnswer::refused(Refusal { number: NO_SPEED, line: 0 });
        let answer = SPEEDS.rev().find(below).map_or(none, SpeedAnswer::answered);
        (self.amended)(answer, study.entries[place].1.speed as u32)
    }
}

fn other(period: Period) -> Period {
    match period {
        Period::Day => Period::Night,
        Period::Night => Period::Day,
    }
}

/// The answer with its speed changed; a refusal stays.
fn with_speed(answer: SpeedAnswer, speed: u32) -> SpeedAnswer {
    if answer.refusal == 0 {
        SpeedAnswer { speed, ..answer }
    } else {
        answer
    }
}

/// A train below 20 km/h is told that speed where there is none.
fn left_to_crawl(answer: SpeedAnswer, typed: u32) -> SpeedAnswer {
    if answer.refusal == NO_SPEED && typed < 20 {
        SpeedAnswer::answered(typed as i32)
    } else {
        answer
    }
}

/// 20 km/h where there is no speed.
fn always_a_speed(answer: SpeedAnswer, _: u32) -> SpeedAnswer {
    if answer.refusal == 0 {
        answer
    } else {
        SpeedAnswer::answered(20)
    }
}

/// The limit brought to tenths in 32 bits.
fn below_in_tenths(total: Level, limit: i32) -> bool {
    total.is_none_or(|figure| (figure as i32) < limit.wrapping_mul(10).wrapping_sub(5))
}

pub fn rules() -> Vec<Rule> {
    let place = |name, place| Rule { name, place, ..RIGHT };
    let below = |name, below| Rule { name, below, ..RIGHT };
    let amended = |name, amended| Rule { name, amended, ..RIGHT };
    vec![
        place("counted from 0", |study, entry| Some(entry as usize).filter(|&place| place < study.entries.len())),
        place("cut to a byte", |study, entry| place_of(study, entry & 255)),
        place("the last for a larger number", |study, entry| place_of(study, entry.min(study.entries.len() as u32))),
        Rule { name: "23 for 25", number: 23, ..RIGHT },
        Rule { name: "24 for 25", number: 24, ..RIGHT },
        Rule { name: "the other period", period: other, ..RIGHT },
        Rule { name: "marks left out", figure: |total| total.nearest, ..RIGHT },
        below("at most the limit", |total, limit| total.is_none_or(|figure| whole_decibels(figure) <= limit as i64)),
        below("before rounding", |total, limit| total.is_none_or(|figure| figure < 10 * limit as i64)),
        below("cut toward zero", |total, limit| total.is_none_or(|figure| (figure + 5) / 10 < limit as i64)),
        below("in tenths of 32 bits", below_in_tenths),
        below("silent is not below", |total, limit| total.is_some() && stays_below(total, limit)),
        below("silent is 0 dB", |total, limit| stays_below(Some(total.unwrap_or(0)), limit)),
        amended("one too low", |answer, _| with_speed(answer, answer.speed.max(21) - 1)),
        amended("one too high", |answer, _| with_speed(answer, answer.speed + 1)),
        amended("no faster than typed", |answer, typed| with_speed(answer, answer.speed.min(typed.max(20)))),
        amended("left to crawl", left_to_crawl),
        amended("20 for 26", always_a_speed),
        amended("26 with a speed", |answer, _| SpeedAnswer { speed: answer.speed.max(20), ..answer }),
    ]
}
