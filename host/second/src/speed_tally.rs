//! What came up in a run of requests for the highest speed.

use std::collections::BTreeMap;

use crate::edges::{self, Edge, Edges};
use crate::interface::SpeedAnswer;
use crate::levels::{whole_decibels, Mark, Period, Rounded};
use crate::reader::{read, FORM};
use crate::speed::{place_of, stays_below, Passing, ENTRY_NUMBER, NO_SPEED, SPEEDS};
use crate::speed_requests::Case;
use crate::study::{Entry, Study, ENTRY_LIMIT};

#[derive(Default)]
pub struct Tally {
    /// By what the limit was taken from.
    pub kinds: BTreeMap<&'static str, u64>,
    pub refused: BTreeMap<u32, u64>,
    /// Answered with a speed, by period.
    pub answered: [u64; 2],
    pub edges: Edges,
    /// Requests to which the rules allow more than one answer.
    pub several: u64,
    /// Totals of railnoise_levels that an answer was held against, and answers asked for with another speed typed.
    pub held: u64,
    pub retyped: u64,
}

/// A request with its allowed answer.
struct Asked<'a> {
    case: &'a Case,
    answer: &'a SpeedAnswer,
    /// Of a good text.
    study: Option<&'a Study>,
}

/// The entry that a request points at, in its study.
struct Pointed<'a> {
    study: &'a Study,
    position: usize,
    entry: Entry,
    period: Period,
    passing: Passing,
}

impl Pointed<'_> {
    fn heard(&self) -> bool {
        self.period.trains(&self.entry) > 0
    }

    /// How many entries have trains in the period.
    fn heard_in_all(&self) -> usize {
        self.study.entries.iter().filter(|(_, entry)| self.period.trains(entry) > 0).count()
    }

    /// How many entries the segment at a position has.
    fn entries_at(&self, position: usize) -> usize {
        self.study.entries.iter().filter(|(of, _)| *of == position).count()
    }

    /// The total at a speed, by one choice of the ground marks.
    fn total(&self, speed: i32) -> Option<Rounded> {
        self.passing.totals(speed)[0]
    }
}

impl<'a> Asked<'a> {
    fn is(&self, refusal: u32) -> bool {
        self.answer.refusal == refusal
    }

    fn pointed(&self) -> Option<Pointed<'a>> {
        let (study, period) = (self.study?, self.case.period);
        let place = place_of(study, self.case.entry)?;
        let (position, entry) = study.entries[place];
        Some(Pointed { study, position, entry, period, passing: Passing::of(study, place, period) })
    }

    /// Of a good text: numbers of entries; of a refused one, what it hides.
    fn numbers(&self) -> Vec<Edge> {
        let entry = self.case.entry;
        let count = self.study.map_or(0, |study| study.entries.len() as u32);
        let cut_to = |bits: u32| self.is(ENTRY_NUMBER) && (1..=count).contains(&(entry & ((1 << bits) - 1)));
        let too_long = (self.answer.refusal, self.answer.line) == (FORM, 0);
        vec![
            ("entry t", self.is(0) && entry == count && count > 1),
            ("entry 0", self.is(ENTRY_NUMBER) && entry == 0),
            ("entry t + 1", self.is(ENTRY_NUMBER) && entry == count + 1),
            ("entry 97 of 96", self.is(ENTRY_NUMBER) && entry == 97 && count as usize == ENTRY_LIMIT),
            ("the largest entry number", self.is(ENTRY_NUMBER) && entry == u32::MAX),
            ("an entry cut to 8 bits", cut_to(8) && entry < 1 << 16),
            ("an entry cut to 16 bits", cut_to(16) && entry < 1 << 31),
            ("an entry cut to 31 bits", cut_to(31)),
            ("25 below every total", self.is(ENTRY_NUMBER) && self.case.limit < -1000),
            ("text refused with no such entry", self.study.is_none() && (entry == 0 || entry > ENTRY_LIMIT as u32)),
            ("text too long", too_long),
        ]
    }

    fn limits(&self, pointed: Option<&Pointed>) -> Vec<Edge> {
        let limit = self.case.limit;
        let heard = pointed.is_some_and(|pointed| pointed.heard_in_all() > 0);
        let tens_fit = limit.checked_mul(10).is_some();
        vec![
            ("26 at the lowest limit", self.is(NO_SPEED) && limit == i32::MIN),
            ("silent at the lowest limit", self.is(0) && limit == i32::MIN),
            ("heard at the highest limit", heard && self.is(0) && limit == i32::MAX),
            ("26 at limit zero", self.is(NO_SPEED) && limit == 0),
            ("a speed at limit zero", heard && self.is(0) && limit == 0),
            ("a speed at a limit below zero", heard && self.is(0) && limit < 0),
            ("26 with ten limits past 32 bits", self.is(NO_SPEED) && !tens_fit),
            ("300 with ten limits past 32 bits", heard && self.is(0) && !tens_fit),
        ]
    }

    /// Of a speed that is answered, or 26 where there is none: how near the next one is.
    fn speeds(&self, pointed: Option<&Pointed>) -> Vec<Edge> {
        let (limit, speed) = (self.case.limit as i64, self.answer.speed as i32);
        let at = |speed: i32| {
            let total = pointed.filter(|_| SPEEDS.contains(&speed)).and_then(|pointed| pointed.total(speed));
            total.map(|total| total.nearest)
        };
        let whole = |speed: i32| at(speed).map(whole_decibels);
        let tenths = |speed: i32| at(speed).map(|figure| figure - 10 * limit);
        vec![
            ("20 km/h", self.is(0) && speed == *SPEEDS.start()),
            ("inside", self.is(0) && speed > *SPEEDS.start() && speed < *SPEEDS.end()),
            ("inside by a tenth", self.is(0) && (tenths(speed), tenths(speed + 1)) == (Some(-6), Some(-5))),
            ("inside below zero", self.is(0) && speed < *SPEEDS.end() && at(speed).is_some_and(|figure| figure < -5)),
            ("300 km/h by a hair", self.is(0) && speed == *SPEEDS.end() && whole(speed) == Some(limit - 1)),
            ("300 km/h with ease", self.is(0) && whole(*SPEEDS.end()).is_some_and(|whole| whole < limit - 1)),
            ("26 by a hair", self.is(NO_SPEED) && whole(*SPEEDS.start()) == Some(limit)),
            ("26 by a tenth", self.is(NO_SPEED) && tenths(*SPEEDS.start()) == Some(-5)),
        ]
    }

    /// Of a request that is not refused for text or number: the entry, its speed as typed, and what surrounds it.
    fn entries(&self, pointed: Option<&Pointed>) -> Vec<Edge> {
        let that = |holds: &dyn Fn(&Pointed) -> bool| pointed.is_some_and(holds);
        let unheard = that(&|pointed| !pointed.heard() && pointed.heard_in_all() > 0);
        let crawls = that(&|pointed| pointed.entry.speed < *SPEEDS.start());
        let typed = pointed.map_or(0, |pointed| pointed.entry.speed as u32);
        vec![
            ("300 for an unheard entry", self.is(0) && unheard),
            ("26 for an unheard entry", self.is(NO_SPEED) && unheard),
            ("all silent", that(&|pointed| pointed.heard_in_all() == 0)),
            ("heard alone", that(&|pointed| pointed.heard() && pointed.heard_in_all() == 1)),
            ("a speed for a train that crawls", self.is(0) && crawls),
            ("26 for a train that crawls", self.is(NO_SPEED) && crawls),
            ("typed faster", self.is(0) && typed > self.answer.speed),
            ("typed as answered", self.is(0) && typed == self.answer.speed),
            ("one entry", that(&|pointed| pointed.study.entries.len() == 1)),
            ("96 entries", that(&|pointed| pointed.study.entries.len() == ENTRY_LIMIT)),
            ("several in its segment", that(&|pointed| pointed.entries_at(pointed.position) > 1)),
            ("after a segment without entries", that(&|p| (0..p.position).any(|before| p.entries_at(before) == 0))),
        ]
    }

    /// Totals that a mark brings to the limit, at the speed after the answered one: an unmarked one stays below.
    fn marks(&self, pointed: Option<&Pointed>, several: bool) -> Vec<Edge> {
        let next = if self.is(NO_SPEED) { *SPEEDS.start() } else { self.answer.speed as i32 + 1 };
        let asked = pointed.filter(|_| SPEEDS.contains(&next));
        let total = asked.and_then(|pointed| pointed.total(next));
        let decides = |mark: Mark| {
            let [nearest, louder] = [|total: Rounded| total.nearest, |total: Rounded| total.louder]
                .map(|figure| total.is_some_and(|total| stays_below(Some(figure(total)), self.case.limit)));
            total.is_some_and(|total| total.mark == mark) && nearest && !louder
        };
        let grounds = pointed.is_some_and(|pointed| pointed.passing.totals(*SPEEDS.start()).len() > 1);
        vec![
            ("required mark decides", decides(Mark::Required)),
            ("free mark taken", decides(Mark::Free)),
            ("free ground marks", grounds),
            ("several answers by ground marks", grounds && several),
            ("several answers by marks of totals", !grounds && several),
        ]
    }

    fn edges(&self, several: bool) -> Vec<Edge> {
        let pointed = self.pointed();
        let pointed = pointed.as_ref();
        let (limits, speeds, entries) = (self.limits(pointed), self.speeds(pointed), self.entries(pointed));
        [self.numbers(), limits, speeds, entries, self.marks(pointed, several)].concat()
    }
}

impl Tally {
    /// An allowed answer, one of so many.
    pub fn add(&mut self, case: &Case, answer: &SpeedAnswer, choices: usize) {
        *self.kinds.entry(case.kind).or_default() += 1;
        if answer.refusal == 0 {
            self.answered[case.period as usize] += 1;
        } else {
            *self.refused.entry(answer.refusal).or_default() += 1;
        }
        self.several += (choices > 1) as u64;
        let study = read(&case.text).ok();
        edges::count(&mut self.edges, Asked { case, answer, study: study.as_ref() }.edges(choices > 1));
    }

    pub fn line(&self, seed: u64, seconds: f64) -> String {
        let refused: Vec<String> = self.refused.iter().map(|(number, count)| format!("{number}:{count}")).collect();
        format!(
            "speed: seed {seed} requests {} (limits from {}); answered {} by day {} by night; refused {}; edges {}; \
             several answers {}; levels held against it {}, another speed typed {}; {seconds:.1} s",
            self.kinds.values().sum::<u64>(),
            edges::words(&self.kinds),
            self.answered[0],
            self.answered[1],
            refused.join(" "),
            edges::words(self.edges.iter().map(|(name, count)| (name, count))),
            self.several,
            self.held,
            self.retyped,
        )
    }
}
