//! The run of requests: railnoise_entitlement held against the second implementation.

use std::io::Write;
use std::process::exit;
use std::time::Instant;

use second::entitlement::{check, explains};
use second::generate::Random;
use second::guarded::{assert_untouched, lend, Guarded};
use second::interface::{EntitlementAnswer, Levels, MOST_CELLS};
use second::requests::{case, Case};
use second::tally::Tally;

use crate::{note_current, Options, Run};

#[cfg(product)]
extern "C" {
    fn railnoise_entitlement(
        text_1: *const u8,
        length_1: usize,
        empty_1: bool,
        text_2: *const u8,
        length_2: usize,
        empty_2: bool,
        text_3: *const u8,
        length_3: usize,
        empty_3: bool,
        text_4: *const u8,
        length_4: usize,
        empty_4: bool,
    ) -> EntitlementAnswer;
}

/// The function on four texts: where they start, their lengths, their marks. What is handed over is ours, so the
/// marks are true bools.
pub type Entitlement = unsafe fn([*const u8; 4], [usize; 4], [bool; 4]) -> EntitlementAnswer;

#[cfg(product)]
unsafe fn of_product(texts: [*const u8; 4], lengths: [usize; 4], empty: [bool; 4]) -> EntitlementAnswer {
    railnoise_entitlement(
        texts[0], lengths[0], empty[0], texts[1], lengths[1], empty[1], texts[2], lengths[2], empty[2], texts[3],
        lengths[3], empty[3],
    )
}

#[cfg(product)]
pub const PRODUCT: Option<Entitlement> = Some(of_product);
#[cfg(not(product))]
pub const PRODUCT: Option<Entitlement> = None;

/// One case for so many texts: it has four of them, so both runs take about as long.
const TEXTS_TO_A_CASE: u64 = 4;

/// Where the texts lie during a call.
struct Bench {
    entitlement: Entitlement,
    levels: Levels,
    texts: [Guarded; 4],
}

impl Bench {
    /// The answer; the texts must be untouched. With `once` equal texts are one and the same text.
    fn call(&mut self, case: &Case, at_end: bool, once: bool) -> EntitlementAnswer {
        let texts = case.texts.each_ref().map(Vec::as_slice);
        let starts = lend(&mut self.texts, texts, at_end, once);
        unsafe {
            let answer = (self.entitlement)(starts, texts.map(<[u8]>::len), case.empty);
            assert_untouched(starts, texts);
            answer
        }
    }

    /// Day and night level of each set, as railnoise_levels gives them.
    fn reported(&self, case: &Case) -> [second::entitlement::Levels; 4] {
        let mut cells = [0; MOST_CELLS];
        case.request().map(|lines| {
            if lines.empty {
                return [None; 2];
            }
            let text = lines.text;
            let answer = unsafe { (self.levels)(text.as_ptr(), text.len(), cells.as_mut_ptr(), MOST_CELLS) };
            answer.periods().map(|period| period.figure())
        })
    }
}

fn fail(options: &Options, index: u64, case: &Case, answer: &EntitlementAnswer, words: &str) -> ! {
    println!("difference: seed {} entitlement case {index} ({})", options.seed, case.kind);
    println!("{words}");
    println!("answer: {answer:?}");
    for (set, lines) in case.request().iter().enumerate() {
        let mark = if lines.empty { ", marked as empty" } else { "" };
        println!("text {}, {} bytes{mark}:", set + 1, lines.text.len());
        let _ = std::io::stdout().write_all(lines.text);
        println!("<end>");
    }
    exit(1)
}

/// One case: checked, at times answered again from other places, and held against railnoise_levels.
fn try_case(options: &Options, bench: &mut Bench, index: u64, tally: &mut Tally) {
    let case = case(options.seed, index);
    let random = &mut Random::new(!options.seed, index);
    let (at_end, once) = (random.chance(75), random.chance(50));
    let answer = bench.call(&case, at_end, once);
    let explanation = match check(&case.request(), &answer) {
        Ok(explanation) => explanation,
        Err(words) => fail(options, index, &case, &answer, &words),
    };
    tally.add(&case, &answer, explanation);
    // The levels combined are those that the product itself reports: a study has one answer.
    if explanation.is_some() && !explains(&bench.reported(&case), &answer) {
        fail(options, index, &case, &answer, "not from the levels that railnoise_levels reports");
    }
    if random.chance(15) {
        let again = bench.call(&case, !at_end, !once);
        if again != answer {
            fail(options, index, &case, &answer, &format!("from other places: {again:?}"));
        }
    }
}

/// A share of the run's count in cases, or the one that is asked for; gives the summary's line, none where another run
/// is asked for.
pub fn run(options: &Options, entitlement: Entitlement, levels: Levels) -> Option<String> {
    let range = options.range(Run::Requests, options.count / TEXTS_TO_A_CASE)?;
    let texts = [(); 4].map(|()| Guarded::new(1 << 17));
    let mut bench = Bench { entitlement, levels, texts };
    let mut tally = Tally::default();
    let start = Instant::now();
    for index in range {
        note_current(Run::Requests, index);
        try_case(options, &mut bench, index, &mut tally);
    }
    Some(tally.line(options.seed, start.elapsed().as_secs_f64()))
}
