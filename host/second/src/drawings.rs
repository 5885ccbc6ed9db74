//! Pairs of drawings for the differential run, with the cells that are lent, each pair from its seed and its number
//! alone. Most are made as one study, so that the total of both comes near a tie, and cut in two; their sizes lean to
//! the limits of both together. Then a period is hushed, or a text is spoilt.

use crate::damage::at_length_limit;
use crate::generate::{aim, any_draft, bad_text, draft_of, Draft, Random, DAY_TRAINS};
use crate::interface::MOST_CELLS;
use crate::study::{ENTRY_LIMIT, SEGMENT_LIMIT};

/// The pairs of one text given twice.
const TWICE: &str = "twice";

/// Segments and entries of a drawing.
#[derive(Clone, Copy, PartialEq, Eq, Debug)]
pub struct Size {
    pub segments: usize,
    pub entries: usize,
}

impl Size {
    pub fn plus(self, other: Size) -> Size {
        Size { segments: self.segments + other.segments, entries: self.entries + other.entries }
    }
}

/// Two texts, how many cells are lent, and what they were made to try.
pub struct Case {
    pub texts: [Vec<u8>; 2],
    pub cells: usize,
    pub kind: &'static str,
    /// As the drawings were before a fault was put into a text.
    pub sizes: [Size; 2],
}

impl Case {
    pub fn texts(&self) -> [&[u8]; 2] {
        self.texts.each_ref().map(Vec::as_slice)
    }
}

/// A sum at the limit, beside it, or any that two drawings can come to.
fn sum_near(random: &mut Random, limit: usize) -> usize {
    match random.below(7) {
        0 => limit - 1,
        1..=3 => limit,
        4 | 5 => limit + 1,
        _ => random.between(2, 2 * limit as i32) as usize,
    }
}

/// Two numbers from 1 to the limit that make up a sum.
fn parts_of(random: &mut Random, sum: usize, limit: usize) -> [usize; 2] {
    let least = sum.saturating_sub(limit).max(1);
    let most = limit.min(sum - 1);
    let first = random.between(least as i32, most as i32) as usize;
    [first, sum - first]
}

/// Entry counts by segment. At times the first segments have no entries, or the last.
fn spread(random: &mut Random, segments: usize, entries: usize) -> Vec<usize> {
    let start = if random.chance(25) { random.below(segments) } else { 0 };
    let end = if random.chance(35) { start + 1 + random.below(segments - start) } else { segments };
    let mut counts = vec![0; segments];
    for _ in 0..entries {
        counts[start + random.below(end - start)] += 1;
    }
    counts
}

/// Two drawings with so many segments and entries together, made as one and cut in two.
fn cut_in_two(random: &mut Random, segments: usize, entries: usize) -> [Draft; 2] {
    let segments = parts_of(random, segments, SEGMENT_LIMIT);
    let entries = parts_of(random, entries, ENTRY_LIMIT);
    let counts = [0, 1].map(|drawing: usize| spread(random, segments[drawing], entries[drawing])).concat();
    let mut first = draft_of(random, &counts);
    aim(random, &mut first);
    let second = Draft { segments: first.segments.split_off(segments[0]) };
    [first, second]
}

/// One drawing or both, by their places; the second more often, since it is looked at only beside a good first.
fn some(random: &mut Random) -> &'static [usize] {
    random.pick::<&[usize]>(&[&[0], &[1], &[1], &[0, 1]])
}

/// One period without trains, in one drawing or both; at times no entries at all, which no text may be without.
fn hush(random: &mut Random, drafts: &mut [Draft; 2]) {
    let period = random.below(2);
    let without = random.chance(15);
    for &place in some(random) {
        for (_, entries) in &mut drafts[place].segments {
            entries.iter_mut().for_each(|entry| entry[DAY_TRAINS + period] = 0);
            if without {
                entries.clear();
            }
        }
    }
}

/// A text that is refused, but for few; at times as long as a text may be, or a byte longer.
pub fn fault(random: &mut Random, draft: &Draft) -> Vec<u8> {
    if random.chance(10) {
        return at_length_limit(random, &draft.text());
    }
    bad_text(random, draft.clone())
}

/// Enough for both drawings, one too few, enough for one of them, none, or any number.
fn cell_count(random: &mut Random, [first, second]: [Size; 2]) -> usize {
    let needed = 2 * first.plus(second).entries;
    match random.below(30) {
        0 | 1 => needed.saturating_sub(1),
        2 => 2 * first.entries,
        3 => 2 * second.entries,
        4 => random.below(needed + 1),
        5 => 0,
        6 => MOST_CELLS,
        7 => needed + random.below(20),
        _ => needed,
    }
}

fn drafts(random: &mut Random) -> ([Draft; 2], &'static str) {
    match random.below(100) {
        0..=34 => {
            let (segments, entries) = (sum_near(random, SEGMENT_LIMIT), sum_near(random, ENTRY_LIMIT));
            (cut_in_two(random, segments, entries), "limits")
        }
        35..=74 => {
            let (segments, entries) = (random.between(2, 6) as usize, random.between(2, 10) as usize);
            (cut_in_two(random, segments, entries), "small")
        }
        75..=89 => ([any_draft(random), any_draft(random)], "apart"),
        _ => ([any_draft(random), Draft::default()], TWICE),
    }
}

/// The pair of this number under this seed.
pub fn case(seed: u64, index: u64) -> Case {
    // Apart from the texts and the requests of the same seed.
    let random = &mut Random::new(seed.wrapping_add(2 << 32), index);
    let (mut drafts, kind) = drafts(random);
    if random.chance(25) {
        hush(random, &mut drafts);
    }
    if kind == TWICE {
        drafts[1] = drafts[0].clone();
    }
    let sizes = drafts.each_ref().map(|draft| Size { segments: draft.segments.len(), entries: draft.entry_count() });
    let cells = cell_count(random, sizes);
    let mut texts = drafts.each_ref().map(Draft::text);
    if random.chance(30) {
        for &place in some(random) {
            texts[place] = fault(random, &drafts[place]);
        }
    }
    if kind == TWICE {
        texts[1] = texts[0].clone();
    }
    Case { texts, cells, kind, sizes }
}
