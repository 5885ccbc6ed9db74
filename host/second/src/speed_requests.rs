//! Requests for the highest speed, for the differential run, each from its seed and its number alone. Most limits are
//! taken from the total at some speed of the entry, so that the answer lies at a wanted place, or just does not; some
//! from a total that hangs on a mark. Then the entry or a period is hushed, a number is given that no entry has, or
//! the text is spoilt.

use crate::drawings::fault;
use crate::generate::{aim, any_draft, draft_of, Draft, Random, DAY_TRAINS, DOUBLE, OPPOSITE, SPEED, TRACK, VIEW};
use crate::levels::{whole_decibels, Period, Rounded, PERIODS};
use crate::reader::read;
use crate::speed::{Passing, Request, SPEEDS};
use crate::study::ENTRY_LIMIT;

/// A request, and what it was made to try.
pub struct Case {
    pub text: Vec<u8>,
    pub entry: u32,
    pub period: Period,
    pub limit: i32,
    pub kind: &'static str,
}

impl Case {
    pub fn request(&self) -> Request<'_> {
        Request { text: &self.text, entry: self.entry, period: self.period, limit: self.limit }
    }
}

/// Ends of the limit's range, and limits around zero.
const ENDS: [i32; 10] = [i32::MIN, i32::MIN, i32::MIN + 1, i32::MAX, i32::MAX, i32::MAX - 1, 0, 0, 0, -1];

/// Ten times this is 4 more than 2^32: a limit beyond it by a level's whole decibels, brought to tenths in 32 bits,
/// would come back as about that level.
const WRAPPED: i32 = 429_496_730;

/// Quiet vehicles, few of them, seen through a narrow angle: levels about zero and below.
fn faint(random: &mut Random) -> Draft {
    let count = random.between(1, 3) as usize;
    let mut draft = draft_of(random, &vec![1; count]);
    for (segment, entries) in &mut draft.segments {
        (segment[VIEW], segment[DOUBLE]) = random.pick(&[(5, 5), (5, 5), (6, 6), (8, 9)]);
        segment[OPPOSITE] = 0;
        segment[TRACK] = random.between(0, 20);
        for entry in entries {
            let trains = [0, 1].map(|_| random.between(1, 3));
            *entry = [random.pick(&[8, 9, 13]), entry[SPEED], random.between(1, 3), trains[0], trains[1]];
        }
    }
    draft
}

fn any_study(random: &mut Random) -> Draft {
    match random.below(20) {
        0..=9 => any_draft(random),
        10 | 11 => draft_of(random, &[1]),
        12..=16 => {
            // Several entries of a segment behind one without entries.
            let count = random.between(2, 6) as usize;
            let mut draft = draft_of(random, &[0, count]);
            aim(random, &mut draft);
            draft
        }
        _ => faint(random),
    }
}

/// In the period, at times: the entry without trains, all of them, or all others; at times the entry crawls.
fn hush(random: &mut Random, draft: &mut Draft, chosen: usize, period: Period) {
    let who = random.below(16);
    let entries = draft.segments.iter_mut().flat_map(|(_, entries)| entries.iter_mut());
    for (place, entry) in entries.enumerate() {
        let hushed = match who {
            0 | 1 => place == chosen,
            2 => true,
            3 => place != chosen,
            _ => false,
        };
        if hushed {
            entry[DAY_TRAINS + period as usize] = 0;
        }
        if place == chosen && random.chance(15) {
            entry[SPEED] = random.between(1, 19);
        }
    }
}

/// The number of the chosen entry, of which there are so many; at times one that no entry has.
fn entry_number(random: &mut Random, chosen: usize, count: usize) -> u32 {
    let (number, full) = (chosen as u32 + 1, count == ENTRY_LIMIT);
    let count = count as u32;
    match random.below(40) {
        // The first number that no study has.
        _ if full && random.chance(30) => count + 1,
        0 | 1 => 0,
        2 | 3 => count + 1,
        4 => u32::MAX,
        5 => random.pick(&[count + 2, u32::MAX - 1, 1 << 31, (1 << 31) - 1]),
        // Cut to fewer bits, each of these would be the entry's.
        6 => number + (1 << 8),
        7 => number + (1 << 16),
        8 => number + (1 << 31),
        _ => number,
    }
}

/// A total on whole decibels, unmarked and marked, whether or not the rules leave that open.
fn wholes(total: Rounded) -> [i64; 2] {
    [total.nearest, total.louder].map(whole_decibels)
}

/// The total at this speed on whole decibels, marked or not; any number where it is silent.
fn whole_at(random: &mut Random, passing: &Passing, speed: i32) -> i32 {
    let totals: Vec<Rounded> = passing.totals(speed).into_iter().flatten().collect();
    if totals.is_empty() {
        return random.between(-100, 100);
    }
    let total = random.pick(&totals);
    wholes(total)[random.below(2)] as i32
}

/// A limit that a mark decides upon at some speed: that of a ground step, or that of a total, free or required.
fn limit_of_mark(random: &mut Random, passing: &Passing) -> Option<i32> {
    let mut limits = Vec::new();
    for speed in SPEEDS {
        let of_speed: Vec<i64> = passing.totals(speed).into_iter().flatten().flat_map(wholes).collect();
        let (least, most) = (of_speed.iter().min(), of_speed.iter().max());
        limits.extend(most.filter(|_| least != most).map(|&most| most as i32));
    }
    (!limits.is_empty()).then(|| random.pick(&limits))
}

/// A limit, and what it was taken from.
fn limit(random: &mut Random, passing: &Passing, period: Period) -> (i32, &'static str) {
    let by_mark = if random.chance(60) { limit_of_mark(random, passing) } else { None };
    if let Some(limit) = by_mark {
        return (limit, "a mark");
    }
    // Every limit is the same to a silent total.
    let silent = passing.totals(*SPEEDS.end()) == [None];
    let (speed, aside, kind): (i32, &[i32], _) = match random.below(16) {
        _ if silent && random.chance(50) => return (random.pick(&ENDS), "an end"),
        0..=5 => (random.between(*SPEEDS.start(), *SPEEDS.end()), &[0, 0, 1, 1, -1, 2], "any speed"),
        6..=8 => (*SPEEDS.start(), &[0, 0, 1, 1, 1], "the lowest speed"),
        9..=11 => (*SPEEDS.end(), &[0, 1, 1, 2], "the highest speed"),
        12 => (*SPEEDS.start(), &[WRAPPED, -WRAPPED], "a wrapped level"),
        13 | 14 => return (random.pick(&ENDS), "an end"),
        _ => return (period.limit() as i32, "the verdict"),
    };
    (whole_at(random, passing, speed) + random.pick(aside), kind)
}

/// The request of this number under this seed.
pub fn case(seed: u64, index: u64) -> Case {
    // Apart from the texts, the requests and the pairs of the same seed.
    let random = &mut Random::new(seed.wrapping_add(3 << 32), index);
    let mut draft = any_study(random);
    let (count, period) = (draft.entry_count(), random.pick(&PERIODS));
    let chosen = random.below(count);
    hush(random, &mut draft, chosen, period);
    let study = read(&draft.text()).expect("a good study");
    let (limit, kind) = limit(random, &Passing::of(&study, chosen, period), period);
    let entry = entry_number(random, chosen, count);
    let text = if random.chance(20) { fault(random, &draft) } else { draft.text() };
    Case { text, entry, period, limit, kind }
}
