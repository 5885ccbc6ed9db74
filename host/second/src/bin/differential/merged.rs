//! The run of pairs: railnoise_merged_levels held against the second implementation, and against railnoise_levels on
//! both drawings typed as one text.

use std::process::exit;
use std::time::Instant;

use second::drawings::{case, Case};
use second::generate::Random;
use second::guarded::{assert_untouched, lend, Guarded};
use second::interface::{Levels, MergedAnswer, MergedLevels, MOST_CELLS};
use second::merged_tally::Tally;
use second::merging::{check, typed_whole, EXTRA_ENTRY, EXTRA_SEGMENT};

use crate::{note_current, show_text, Options, Run};

#[cfg(product)]
extern "C" {
    fn railnoise_merged_levels(
        first: *const u8,
        first_length: usize,
        second: *const u8,
        second_length: usize,
        cells: *mut i32,
        cell_count: usize,
    ) -> MergedAnswer;
}

#[cfg(product)]
pub const PRODUCT: Option<MergedLevels> = Some(railnoise_merged_levels);
#[cfg(not(product))]
pub const PRODUCT: Option<MergedLevels> = None;

/// One pair for so many texts: most are far larger than those.
pub const TEXTS_TO_A_PAIR: u64 = 4;

/// Where texts and cells lie during a call, and railnoise_levels with its own.
struct Bench {
    merged: MergedLevels,
    texts: [Guarded; 2],
    cells: Guarded,
    single: crate::Bench,
}

impl Bench {
    /// The answer and the cells after it; the texts must be untouched. With `once` equal texts are one and the same.
    fn call(&mut self, texts: [&[u8]; 2], before: &[i32], at_end: bool, once: bool) -> (MergedAnswer, Vec<i32>) {
        let starts = lend(&mut self.texts, texts, at_end, once);
        let cells = self.cells.cells(before, at_end);
        // No cells are handed over as null half of the time.
        let lent = if before.is_empty() && at_end { std::ptr::null_mut() } else { cells.as_mut_ptr() };
        let ([first, second], [first_length, second_length]) = (starts, texts.map(<[u8]>::len));
        unsafe {
            let answer = (self.merged)(first, first_length, second, second_length, lent, before.len());
            assert_untouched(starts, texts);
            (answer, cells.to_vec())
        }
    }

    /// Day and night level of a drawing by itself.
    fn reported(&mut self, text: &[u8]) -> second::entitlement::Levels {
        self.single.call(text, &[0; MOST_CELLS], true).0.periods().map(|period| period.figure())
    }
}

fn fail(options: &Options, index: u64, case: &Case, answer: &MergedAnswer, words: &str) -> ! {
    println!("difference: seed {} pair {index} ({}), {} cells", options.seed, case.kind, case.cells);
    println!("{words}");
    println!("answer: {answer:?}");
    for (place, text) in case.texts.iter().enumerate() {
        show_text(&format!("text {}", place + 1), text);
    }
    exit(1)
}

/// What was answered, and the cells before and after.
struct Seen<'a> {
    answer: MergedAnswer,
    before: &'a [i32],
    after: &'a [i32],
}

/// Two good texts asked for otherwise; words on the first answer that differs.
fn asked_otherwise(bench: &mut Bench, case: &Case, seen: &Seen, tally: &mut Tally) -> Result<(), String> {
    let [first, second] = case.texts();
    // The other way round the study is the same but for its order.
    let (turned, _) = bench.call([second, first], seen.before, true, false);
    tally.turned += 1;
    if turned != seen.answer {
        return Err(format!("the other way round: {turned:?}"));
    }
    if [EXTRA_SEGMENT, EXTRA_ENTRY].contains(&seen.answer.refusal) {
        return Ok(());
    }
    let (single, cells) = bench.single.call(&typed_whole([first, second]), seen.before, true);
    tally.typed_whole += 1;
    if single != seen.answer.whole() || cells != seen.after {
        return Err(format!("typed whole: {single:?}, cells {cells:?}, here {:?}", seen.after));
    }
    Ok(())
}

/// One pair: checked, asked for otherwise, and at times answered again from other places over other cells.
fn try_pair(options: &Options, bench: &mut Bench, index: u64, tally: &mut Tally) {
    let case = case(options.seed, index);
    let random = &mut Random::new(!options.seed, index);
    let before: Vec<i32> = (0..case.cells).map(|_| random.word() as i32).collect();
    let (at_end, once) = (random.chance(75), random.chance(50));
    let (answer, after) = bench.call(case.texts(), &before, at_end, once);
    let report = match check(case.texts(), &before, &after, &answer) {
        Ok(report) => report,
        Err(found) => fail(options, index, &case, &answer, &format!("{:?}: {}", found.part, found.words)),
    };
    tally.add(&case, &answer, &report);
    if answer.text == 0 {
        let seen = Seen { answer, before: &before, after: &after };
        if let Err(words) = asked_otherwise(bench, &case, &seen, tally) {
            fail(options, index, &case, &answer, &words);
        }
    }
    if answer.refusal == 0 {
        tally.add_parts(&answer, case.texts().map(|text| bench.reported(text)));
    }
    if random.chance(15) {
        let other: Vec<i32> = before.iter().map(|cell| !cell).collect();
        let (again, _) = bench.call(case.texts(), &other, !at_end, !once);
        if again != answer {
            fail(options, index, &case, &answer, &format!("from other places over other cells: {again:?}"));
        }
    }
}

/// A share of the run's count in pairs, or the one that is asked for; gives the summary's line, none where another run
/// is asked for.
pub fn run(options: &Options, merged: MergedLevels, levels: Levels) -> Option<String> {
    let range = options.range(Run::Pairs, options.count / TEXTS_TO_A_PAIR)?;
    let texts = [(); 2].map(|()| Guarded::new(1 << 17));
    let mut bench = Bench { merged, texts, cells: Guarded::new(1 << 14), single: crate::Bench::of(levels) };
    let mut tally = Tally::default();
    let start = Instant::now();
    for index in range {
        note_current(Run::Pairs, index);
        try_pair(options, &mut bench, index, &mut tally);
    }
    Some(tally.line(options.seed, start.elapsed().as_secs_f64()))
}
