//! How fast past this window (02, L6): what railnoise_highest_speed may answer.
//!
//! An answer may hang on free marks. A segment's ground step has one mark, which serves every speed; each speed makes
//! a total of its own, whose mark is free apart from the others'. An answer is allowed when some choice explains all
//! of it: the total at the answered speed stays below the limit, and the total at each higher one does not.
//! Every speed is tried, from the highest down: nothing here takes for granted that totals rise with the speed.

use std::ops::RangeInclusive;

use crate::choices::{distinct, possible_figures, possible_grounds, possible_sums};
use crate::energy::{energy, Energy};
use crate::entitlement::Level;
use crate::interface::SpeedAnswer;
use crate::levels::{period_part, total_rounded, whole_decibels, Period, Rounded, Workings};
use crate::reader::{read, Refusal};
use crate::steps::TENTH;
use crate::study::{Entry, Study};

pub const ENTRY_NUMBER: u32 = 25;
pub const NO_SPEED: u32 = 26;

/// The speeds that may be answered, km/h.
pub const SPEEDS: RangeInclusive<i32> = 20..=300;

/// In the order of the C function.
#[derive(Clone, Copy, Debug)]
pub struct Request<'a> {
    pub text: &'a [u8],
    /// Counted from 1.
    pub entry: u32,
    pub period: Period,
    /// Whole decibels, any number: it is compared and never counted with.
    pub limit: i32,
}

/// Whether a total on whole decibels is lower than the limit; a silent one is lower than every limit.
pub fn stays_below(total: Level, limit: i32) -> bool {
    total.is_none_or(|figure| whole_decibels(figure) < limit as i64)
}

/// An entry's place in the study, counted from 0, from its number, counted from 1.
pub fn place_of(study: &Study, entry: u32) -> Option<usize> {
    (entry as usize).checked_sub(1).filter(|&place| place < study.entries.len())
}

/// What surrounds an entry in a period, by one choice of the ground marks.
struct Surroundings {
    /// The ground step of the entry's own segment, tenths.
    ground: i64,
    /// The energy of all other entries; none where they are silent.
    others: Option<Energy>,
}

/// One entry in one period, and what surrounds it by each choice of the ground marks.
pub struct Passing {
    /// The entry's level at each speed without the ground step, tenths; none where it is silent.
    levels: Vec<Level>,
    surroundings: Vec<Surroundings>,
}

impl Passing {
    /// Of the entry at this place, counted from 0.
    pub fn of(study: &Study, place: usize, period: Period) -> Passing {
        let (own, entry) = study.entries[place];
        let mut rest = study.clone();
        rest.entries.remove(place);
        let workings = Workings::of(&rest);
        let level = |speed| {
            let part = period_part(&workings.segments[own], &Entry { speed, ..entry }, period);
            part.map(|part| part.tenths)
        };
        let grounds = possible_grounds(&workings);
        let mut surroundings = Vec::new();
        for &ground in &grounds[own] {
            let mut with_own = grounds.clone();
            with_own[own] = vec![ground];
            let sums = possible_sums(&workings, &with_own).into_iter().map(|sums| sums[period as usize]);
            let around = |others| Surroundings { ground, others };
            surroundings.extend(distinct(sums.collect()).into_iter().map(around));
        }
        Passing { levels: SPEEDS.map(level).collect(), surroundings }
    }

    /// The energy of all entries at this speed of the one; none where all are silent.
    fn sum(&self, around: &Surroundings, speed: i32) -> Option<Energy> {
        let level = self.levels[(speed - SPEEDS.start()) as usize];
        let own = level.map(|level| energy((level + around.ground) * TENTH));
        own.into_iter().chain(around.others).reduce(Energy::plus)
    }

    /// The total at this speed by each choice of the ground marks; none where it is silent.
    pub fn totals(&self, speed: i32) -> Vec<Option<Rounded>> {
        self.surroundings.iter().map(|around| self.sum(around, speed).map(total_rounded)).collect()
    }

    /// The speeds that make totals apart from each other: where the entry is silent there is one total, with one mark.
    fn apart(&self) -> RangeInclusive<i32> {
        let silent = self.levels.iter().all(Option::is_none);
        if silent {
            *SPEEDS.end()..=*SPEEDS.end()
        } else {
            SPEEDS
        }
    }

    /// With these surroundings, each speed that may be the highest below the limit; none where there may be no speed.
    fn highest_with(&self, around: &Surroundings, limit: i32) -> Vec<Option<i32>> {
        let mut found = Vec::new();
        for speed in self.apart().rev() {
            let figures = possible_figures(self.sum(around, speed));
            let below: Vec<bool> = figures.into_iter().map(|figure| stays_below(figure, limit)).collect();
            if below.contains(&true) {
                found.push(Some(speed));
            }
            if !below.contains(&false) {
                return found;
            }
        }
        found.push(None);
        found
    }

    /// The same over all choices of marks.
    pub fn highest(&self, limit: i32) -> Vec<Option<i32>> {
        distinct(self.surroundings.iter().flat_map(|around| self.highest_with(around, limit)).collect())
    }
}

/// What may be answered for a study: mostly one answer.
pub fn allowed_for(study: &Study, entry: u32, period: Period, limit: i32) -> Vec<SpeedAnswer> {
    let Some(place) = place_of(study, entry) else {
        return vec![SpeedAnswer::refused(Refusal { number: ENTRY_NUMBER, line: 0 })];
    };
    let no_speed = SpeedAnswer::refused(Refusal { number: NO_SPEED, line: 0 });
    let highest = Passing::of(study, place, period).highest(limit);
    highest.into_iter().map(|speed| speed.map_or(no_speed, SpeedAnswer::answered)).collect()
}

/// What may be answered to a request.
pub fn allowed(request: &Request) -> Vec<SpeedAnswer> {
    match read(request.text) {
        Err(refusal) => vec![SpeedAnswer::refused(refusal)],
        Ok(study) => allowed_for(&study, request.entry, request.period, request.limit),
    }
}

/// Whether 01 and 02 allow this answer: among how many, or words on what was expected.
pub fn check(request: &Request, answer: &SpeedAnswer) -> Result<usize, String> {
    let allowed = allowed(request);
    if allowed.contains(answer) {
        Ok(allowed.len())
    } else {
        Err(format!("expected one of {allowed:?}"))
    }
}

/// A good text with another speed typed in the line of the entry of this number, which it has.
pub fn retyped(text: &[u8], entry: u32, speed: i32) -> Vec<u8> {
    let mut lines: Vec<Vec<u8>> = text.split(|&byte| byte == b'\n').map(<[u8]>::to_vec).collect();
    let words = |line: &[u8]| line.iter().filter(|&&byte| byte == b' ').count() + 1;
    // Below the contents, the lines of five numbers are the entries', in their order.
    let mut of_entries = lines.iter_mut().skip(1).filter(|line| words(line) == 5);
    let line = of_entries.nth(entry as usize - 1).expect("an entry of the text");
    let mut numbers: Vec<&[u8]> = line.split(|&byte| byte == b' ').collect();
    let typed = speed.to_string();
    numbers[1] = typed.as_bytes();
    *line = numbers.join(&b' ');
    lines.join(&b'\n')
}
