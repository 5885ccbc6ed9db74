//! The run of requests for the highest speed: railnoise_highest_speed held against the second implementation, and
//! against what railnoise_levels reports with speeds typed in the entry's line.

use std::process::exit;
use std::time::Instant;

use second::generate::Random;
use second::guarded::{assert_untouched, lend, Guarded};
use second::interface::{HighestSpeed, Levels, SpeedAnswer, MOST_CELLS};
use second::levels::PERIODS;
use second::speed::{check, retyped, stays_below, NO_SPEED, SPEEDS};
use second::speed_requests::{case, Case};
use second::speed_tally::Tally;

use crate::{note_current, show_text, Options, Run};

#[cfg(product)]
extern "C" {
    fn railnoise_highest_speed(text: *const u8, text_length: usize, entry: u32, night: bool, limit: i32)
        -> SpeedAnswer;
}

#[cfg(product)]
pub const PRODUCT: Option<HighestSpeed> = Some(railnoise_highest_speed);
#[cfg(not(product))]
pub const PRODUCT: Option<HighestSpeed> = None;

/// One request for so many texts: it looks at one text at many speeds.
const TEXTS_TO_A_REQUEST: u64 = 4;

/// Where a text lies during a call, and railnoise_levels with its own.
struct Bench {
    highest: HighestSpeed,
    text: [Guarded; 1],
    single: crate::Bench,
}

impl Bench {
    /// The answer for a text in place of the request's own; the text must be untouched.
    fn call(&mut self, case: &Case, text: &[u8], at_end: bool) -> SpeedAnswer {
        let [start] = lend(&mut self.text, [text], at_end, false);
        let night = case.period == PERIODS[1];
        unsafe {
            let answer = (self.highest)(start, text.len(), case.entry, night, case.limit);
            assert_untouched([start], [text]);
            answer
        }
    }

    /// Whether railnoise_levels reports a total below the limit with this speed typed in the entry's line.
    fn below(&mut self, case: &Case, speed: i32) -> bool {
        let text = retyped(&case.text, case.entry, speed);
        let (answer, _) = self.single.call(&text, &[0; MOST_CELLS], true);
        stays_below(answer.periods()[case.period as usize].figure(), case.limit)
    }
}

fn fail(options: &Options, index: u64, case: &Case, answer: &SpeedAnswer, words: &str) -> ! {
    println!(
        "difference: seed {} speed request {index} (limit from {}), entry {}, {:?}, limit {}",
        options.seed, case.kind, case.entry, case.period, case.limit
    );
    println!("{words}");
    println!("answer: {answer:?}");
    show_text("text", &case.text);
    exit(1)
}

/// Speeds to try an answer by: around it, at both ends, a train that crawls, and any on either side of it.
fn speeds_around(random: &mut Random, highest: i32) -> Vec<i32> {
    let (least, most) = (*SPEEDS.start(), *SPEEDS.end());
    let mut speeds = vec![highest, highest + 1, least, random.between(1, least - 1)];
    speeds.push(random.between(1, highest.max(1)));
    speeds.push(random.between((highest + 1).min(most), most));
    speeds.retain(|speed| (1..=most).contains(speed));
    speeds
}

/// An entry that is there, asked for otherwise; words on what does not go with the answer.
fn asked_otherwise(
    bench: &mut Bench,
    case: &Case,
    answer: &SpeedAnswer,
    random: &mut Random,
    tally: &mut Tally,
) -> Result<(), String> {
    // Where there is no speed, the total does not stay below at any: as if the highest were 0.
    let highest = answer.speed as i32;
    for speed in speeds_around(random, highest) {
        tally.held += 1;
        if bench.below(case, speed) != (speed <= highest) {
            return Err(format!("railnoise_levels at {speed} km/h does not go with it"));
        }
    }
    let typed = random.between(1, *SPEEDS.end());
    let again = bench.call(case, &retyped(&case.text, case.entry, typed), true);
    tally.retyped += 1;
    if again != *answer {
        return Err(format!("with {typed} km/h typed in the entry's line: {again:?}"));
    }
    Ok(())
}

/// One request: checked, asked for otherwise, and at times answered again from another place.
fn try_request(options: &Options, bench: &mut Bench, index: u64, tally: &mut Tally) {
    let case = case(options.seed, index);
    let random = &mut Random::new(!options.seed, index);
    let at_end = random.chance(75);
    let answer = bench.call(&case, &case.text, at_end);
    match check(&case.request(), &answer) {
        Ok(choices) => tally.add(&case, &answer, choices),
        Err(words) => fail(options, index, &case, &answer, &words),
    }
    if [0, NO_SPEED].contains(&answer.refusal) {
        if let Err(words) = asked_otherwise(bench, &case, &answer, random, tally) {
            fail(options, index, &case, &answer, &words);
        }
    }
    if random.chance(15) {
        let again = bench.call(&case, &case.text, !at_end);
        if again != answer {
            fail(options, index, &case, &answer, &format!("from another place: {again:?}"));
        }
    }
}

/// A share of the run's count in requests, or the one that is asked for; gives the summary's line, none where another
/// run is asked for.
pub fn run(options: &Options, highest: HighestSpeed, levels: Levels) -> Option<String> {
    let range = options.range(Run::Speeds, options.count / TEXTS_TO_A_REQUEST)?;
    let mut bench = Bench { highest, text: [Guarded::new(1 << 17)], single: crate::Bench::of(levels) };
    let mut tally = Tally::default();
    let start = Instant::now();
    for index in range {
        note_current(Run::Speeds, index);
        try_request(options, &mut bench, index, &mut tally);
    }
    Some(tally.line(options.seed, start.elapsed().as_secs_f64()))
}
