//! What came up in a run of pairs.

use std::collections::BTreeMap;

use crate::check::{Report, CELLS_SHORT};
use crate::drawings::{Case, Size};
use crate::edges::{self, Edge, Edges};
use crate::entitlement::{Level, Levels};
use crate::interface::MergedAnswer;
use crate::levels::{total_of, Period, PERIODS};
use crate::merging::{EXTRA_ENTRY, EXTRA_SEGMENT};
use crate::reader::{read, Refusal, FORM};
use crate::study::{Study, ENTRY_LIMIT, SEGMENT_LIMIT};

#[derive(Default)]
pub struct Tally {
    pub kinds: BTreeMap<&'static str, u64>,
    /// By the number of the refused text, 0 where both are good, and by the refusal's.
    pub refused: BTreeMap<(u32, u32), u64>,
    pub answered: u64,
    pub edges: Edges,
    /// Marks and differences from the bare level, of all answers.
    pub all: Report,
    /// Periods with trains in both drawings: their level is the two reported levels combined, or is not.
    pub combined: [u64; 2],
    /// Pairs whose answer was also asked for as one text, and for the drawings the other way round.
    pub typed_whole: u64,
    pub turned: u64,
}

/// A pair with its allowed answer.
struct Pair<'a> {
    case: &'a Case,
    studies: [Result<Study, Refusal>; 2],
    answer: &'a MergedAnswer,
    report: &'a Report,
}

impl Pair<'_> {
    fn is(&self, refusal: u32) -> bool {
        self.answer.refusal == refusal
    }

    /// As the texts were read; of a refused one, as it was drawn.
    fn sizes(&self) -> [Size; 2] {
        [0, 1].map(|drawing: usize| match &self.studies[drawing] {
            Ok(study) => Size { segments: study.segments.len(), entries: study.entries.len() },
            Err(_) => self.case.sizes[drawing],
        })
    }

    fn limits(&self) -> Vec<Edge> {
        let [first, second] = self.sizes();
        let size = first.plus(second);
        let (full, past) = (SEGMENT_LIMIT, SEGMENT_LIMIT + 1);
        let (most, over) = (ENTRY_LIMIT, ENTRY_LIMIT + 1);
        let by_figure = self.answer.text == 2 && self.answer.refusal < FORM;
        vec![
            ("24 segments", self.is(0) && size.segments == full),
            ("96 entries", self.is(0) && size.entries == most),
            ("24 and 96", self.is(0) && (size.segments, size.entries) == (full, most)),
            ("25 segments", self.is(EXTRA_SEGMENT) && size.segments == past && size.entries <= most),
            ("97 entries", self.is(EXTRA_ENTRY) && size.entries == over),
            ("24 and 97", self.is(EXTRA_ENTRY) && (size.segments, size.entries) == (full, over)),
            ("25 and 97", self.is(EXTRA_SEGMENT) && (size.segments, size.entries) == (past, over)),
            ("over 24 and over 96", self.is(EXTRA_SEGMENT) && size.entries > most),
            ("text 2 refused over 24 segments", by_figure && size.segments > full),
            ("text 2 refused over 96 entries", by_figure && size.entries > most),
        ]
    }

    fn texts(&self) -> Vec<Edge> {
        let [first, second] = self.studies.each_ref().map(|study| study.as_ref().err());
        let numbers = first.zip(second).map(|(first, second)| (first.number, second.number));
        let same = self.case.texts[0] == self.case.texts[1];
        let too_long = |text: u32| (self.answer.refusal, self.answer.text, self.answer.line) == (FORM, text, 0);
        let without = |text: u32| self.answer.text == text && self.sizes()[text as usize - 1].entries == 0;
        vec![
            ("both refused", numbers.is_some()),
            ("text 2 by a lower number", numbers.is_some_and(|(first, second)| second < first)),
            ("text 1 too long", too_long(1)),
            ("text 2 too long", too_long(2)),
            ("text 1 without entries", without(1)),
            ("text 2 without entries", without(2)),
            ("one text twice", self.is(0) && same),
            ("one refused text twice", numbers.is_some() && same),
        ]
    }

    fn cells(&self) -> Vec<Edge> {
        let cells = self.case.cells;
        let [first, second] = self.sizes().map(|size| 2 * size.entries);
        let needed = first + second;
        let short = cells < needed;
        vec![
            ("2t cells", self.is(0) && cells == needed),
            ("more cells", self.is(0) && cells > needed),
            ("2t - 1 cells", self.is(CELLS_SHORT) && cells + 1 == needed),
            ("cells for text 1", self.is(CELLS_SHORT) && cells == first),
            ("cells for text 2", self.is(CELLS_SHORT) && cells == second),
            ("no cells", self.is(CELLS_SHORT) && cells == 0),
            ("few cells with 21", self.is(EXTRA_SEGMENT) && short),
            ("few cells with 22", self.is(EXTRA_ENTRY) && short),
            ("few cells with text 1 refused", self.answer.text == 1 && short),
            ("few cells with text 2 refused", self.answer.text == 2 && short),
        ]
    }

    /// Of an answered pair: segments and periods without trains, and marks that are free.
    fn heard(&self) -> Vec<Edge> {
        let studies = self.studies.each_ref().map(|study| study.as_ref().ok().filter(|_| self.is(0)));
        let empty = |drawing: usize, last: bool| {
            studies[drawing].is_some_and(|study| {
                let place = if last { study.segments.len() - 1 } else { 0 };
                study.entries.iter().all(|(position, _)| *position != place)
            })
        };
        let silent = |period: Period| {
            studies.map(|study| study.map(|study| study.entries.iter().all(|(_, entry)| period.trains(entry) == 0)))
        };
        let [day, night] = PERIODS.map(silent);
        let own = self.sizes()[0].segments;
        vec![
            ("text 1 ends unheard", empty(0, true)),
            ("text 2 begins unheard", empty(1, false)),
            ("text 2 ends unheard", empty(1, true)),
            ("day silent in text 1", day == [Some(true), Some(false)]),
            ("day silent in text 2", day == [Some(false), Some(true)]),
            ("day silent in both", day == [Some(true); 2]),
            ("night silent in text 1", night == [Some(true), Some(false)]),
            ("night silent in text 2", night == [Some(false), Some(true)]),
            ("night silent in both", night == [Some(true); 2]),
            ("free ground in text 1", self.report.free_grounds.iter().any(|&position| position < own)),
            ("free ground in text 2", self.report.free_grounds.iter().any(|&position| position >= own)),
        ]
    }

    fn edges(&self) -> Vec<Edge> {
        [self.limits(), self.texts(), self.cells(), self.heard()].concat()
    }
}

fn by_number(refused: &BTreeMap<(u32, u32), u64>, text: u32) -> String {
    let of_text = refused.iter().filter(|((named, _), _)| *named == text);
    let words: Vec<String> = of_text.map(|((_, number), count)| format!("{number}:{count}")).collect();
    words.join(" ")
}

impl Tally {
    /// An allowed answer.
    pub fn add(&mut self, case: &Case, answer: &MergedAnswer, report: &Report) {
        *self.kinds.entry(case.kind).or_default() += 1;
        if answer.refusal == 0 {
            self.answered += 1;
            self.all.gather(report);
        } else {
            *self.refused.entry((answer.text, answer.refusal)).or_default() += 1;
        }
        edges::count(&mut self.edges, Pair { case, studies: case.texts().map(read), answer, report }.edges());
    }

    /// What an answered pair's drawings report by themselves: combined by Chart 9 that is not always its level.
    pub fn add_parts(&mut self, answer: &MergedAnswer, parts: [Levels; 2]) {
        for (period, shown) in PERIODS.into_iter().zip(answer.periods()) {
            let levels: [Level; 2] = parts.map(|of_drawing| of_drawing[period as usize]);
            if let [Some(first), Some(second)] = levels {
                let choices = total_of([first, second].into_iter()).expect("two levels").choices();
                let apart = choices.iter().all(|&(_, figure)| shown.figure() != Some(figure));
                self.combined[apart as usize] += 1;
            }
        }
    }

    pub fn line(&self, seed: u64, seconds: f64) -> String {
        format!(
            "merged: seed {seed} pairs {} ({}); answered {}; refused text 1 {}, text 2 {}, together {}; edges {}; {}; \
             levels combined give it {}, another {}; typed whole {}, the other way round {}; {}; {seconds:.1} s",
            self.kinds.values().sum::<u64>(),
            edges::words(&self.kinds),
            self.answered,
            by_number(&self.refused, 1),
            by_number(&self.refused, 2),
            by_number(&self.refused, 0),
            edges::words(self.edges.iter().map(|(name, count)| (name, count))),
            self.all.marks(),
            self.combined[0],
            self.combined[1],
            self.typed_whole,
            self.turned,
            self.all.largest_difference(),
        )
    }
}
