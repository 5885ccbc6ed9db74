//! Requests for the differential run: four texts with their marks of emptiness, each request from its seed and
//! its number alone. Most are tuned to levels at which a condition just holds or just fails, in each period
//! apart; then texts are spoilt, and something is put behind marks, where nobody may look.

use std::sync::OnceLock;

use crate::entitlement::{Level, Levels, Lines, Request, ALTERED_AFTER, ALTERED_BEFORE, OTHER_AFTER, OTHER_BEFORE};
use crate::generate::{
    any_draft, bad_text, good_entry, good_segment, Draft, EntryNumbers, Random, SegmentNumbers, DAY_TRAINS, TRACK,
};
use crate::levels::{period_part, segment_part, total_of, Period, SegmentPart, PERIODS};
use crate::steps::{self, nearest_tenth};
use crate::study::{Entry, Segment};

/// A request, and what it was made to try.
pub struct Case {
    pub texts: [Vec<u8>; 4],
    pub empty: [bool; 4],
    pub kind: &'static str,
}

impl Case {
    pub fn request(&self) -> Request<'_> {
        [0, 1, 2, 3].map(|set| Lines { text: &self.texts[set], empty: self.empty[set] })
    }
}

/// Tenths between two levels whose combination is marked always (the first three), or may be.
const MARKED: [i64; 11] = [87, 193, 194, 12, 22, 96, 123, 145, 146, 192, 195];

/// Two entries so many tenths apart have a total so many tenths above the louder; the first is marked always, the
/// others may be and are a tenth louder then.
const SPLITS: [(i64, i64); 3] = [(87, 6), (22, 20), (123, 2)];

/// Tenths between two levels: further apart, the quieter one adds nothing.
const SPREAD: i64 = 260;

const READING_LIMIT: i64 = 150;

struct Tables {
    /// By how much one level lies above another, from -SPREAD on: how far their combination lies above the other.
    above: Vec<i64>,
    /// Numbers of trains by the tenths of their step.
    trains: Vec<Vec<i32>>,
}

fn tables() -> &'static Tables {
    static TABLES: OnceLock<Tables> = OnceLock::new();
    TABLES.get_or_init(|| {
        let above = |difference: i64| {
            let total = total_of([600 + difference, 600].into_iter()).expect("two levels");
            total.choices()[0].1 - 600
        };
        let mut trains = vec![Vec::new(); 331];
        for count in 1..=2000 {
            trains[nearest_tenth(steps::trains(count)) as usize].push(count);
        }
        Tables { above: (-SPREAD..=SPREAD).map(above).collect(), trains }
    })
}

/// How far the combination of two levels lies above the second, when the first lies so far above it.
fn above(difference: i64) -> i64 {
    tables().above[(difference + SPREAD) as usize]
}

/// A difference of two levels whose combination lies so far above the second, if there is one.
fn difference_for(random: &mut Random, wanted: i64) -> Option<i64> {
    let fitting: Vec<i64> = (-SPREAD..=SPREAD).filter(|&difference| above(difference) == wanted).collect();
    (!fitting.is_empty()).then(|| random.pick(&fitting))
}

/// Altered and other lines that combine to a total: together, or one of them alone.
fn pair(random: &mut Random, total: i64, heard: [bool; 2]) -> [Level; 2] {
    if heard != [true; 2] {
        return heard.map(|heard| heard.then_some(total));
    }
    let difference = match random.below(4) {
        // Other lines about a decibel below both together: where the altered lines just contribute.
        0 | 1 => {
            let wanted = random.pick(&[9, 10, 11]);
            difference_for(random, wanted).expect("about a decibel can be added")
        }
        2 => random.pick(&MARKED) * random.pick(&[1, -1]),
        _ => random.between(-SPREAD as i32, SPREAD as i32) as i64,
    };
    let other = total - above(difference);
    [Some(other + difference), Some(other)]
}

/// Altered lines that bring given other lines to a total; none where the others reach it alone.
fn beside(random: &mut Random, other: Level, total: i64) -> Level {
    let Some(other) = other else {
        return Some(total);
    };
    difference_for(random, total - other).map(|difference| other + difference)
}

/// Levels of the four sets in one period. With `kept` the other lines stay as they are.
fn wanted_levels(random: &mut Random, period: Period, heard: [bool; 4], kept: bool) -> [Level; 4] {
    let limit = 10 * period.limit();
    let relevant = match random.below(5) {
        0 => limit - 6,
        1 => limit - 5,
        2 | 3 => limit + random.between(-30, 30) as i64,
        _ => random.between(450, 800) as i64,
    };
    let prevailing = relevant - random.pick(&[9, 9, 10, 10, 11, 11, 0, -12, 40]);
    let [altered_after, other_after] = pair(random, relevant, [heard[ALTERED_AFTER], heard[OTHER_AFTER]]);
    let [altered_before, other_before] = if kept {
        [beside(random, other_after, prevailing), other_after]
    } else {
        pair(random, prevailing, [heard[ALTERED_BEFORE], heard[OTHER_BEFORE]])
    };
    let mut levels = [altered_before, altered_after, other_before, other_after];
    if random.chance(12) {
        levels[random.below(4)] = None;
    }
    levels
}

/// The levels of a study's entries: one alone, or two that together come to what is wanted.
fn split(random: &mut Random, wanted: Levels) -> Vec<Levels> {
    if random.chance(80) {
        return vec![wanted];
    }
    let (apart, added) = random.pick(&SPLITS);
    let louder = wanted.map(|level| level.map(|level| level - added));
    vec![louder, louder.map(|level| level.map(|level| level - apart))]
}

/// The segment with a Table 1 reading, and the entries with trains, that give each entry its wanted levels; no
/// study where no reading does. The segment has reading 0 so far.
fn reach(
    random: &mut Random,
    mut segment: SegmentNumbers,
    part: &SegmentPart,
    mut entries: Vec<EntryNumbers>,
    wanted: &[Levels],
) -> Option<Draft> {
    // What reading and trains have to give together.
    let needs = |(entry, levels): (&EntryNumbers, &Levels)| {
        let one_train = Entry { day_trains: 1, night_trains: 1, ..Entry::from_numbers(entry) };
        PERIODS.map(|period| {
            let without = period_part(part, &one_train, period).expect("a train").tenths + part.ground.nearest;
            levels[period as usize].map(|level| level - without)
        })
    };
    let needed: Vec<Levels> = entries.iter().zip(wanted).map(needs).collect();
    let counts = |tenths: i64| usize::try_from(tenths).ok().and_then(|place| tables().trains.get(place));
    let found = |tenths: i64| counts(tenths).is_some_and(|list| !list.is_empty());
    let start = random.between(0, READING_LIMIT as i32) as i64;
    let mut readings = (0..=READING_LIMIT).map(|step| (start + step) % (READING_LIMIT + 1));
    let reading = readings.find(|reading| needed.iter().flatten().flatten().all(|need| found(need - reading)))?;
    segment[TRACK] = reading as i32;
    for (entry, needs) in entries.iter_mut().zip(&needed) {
        for (period, need) in needs.iter().enumerate() {
            let list = need.and_then(|need| counts(need - reading));
            entry[DAY_TRAINS + period] = list.map_or(0, |list| random.pick(list));
        }
    }
    Some(Draft { segments: vec![(segment, entries)] })
}

/// A study that reports these levels, or may report them where a mark is free.
fn tuned(random: &mut Random, wanted: Levels) -> Draft {
    for _ in 0..20 {
        let mut segment = good_segment(random);
        segment[TRACK] = 0;
        let part = segment_part(&Segment::from_numbers(&segment));
        for _ in 0..10 {
            let levels = split(random, wanted);
            let entries = levels.iter().map(|_| good_entry(random)).collect();
            if let Some(draft) = reach(random, segment, &part, entries, &levels) {
                return draft;
            }
        }
    }
    any_draft(random)
}

fn tuned_texts(random: &mut Random, empty: [bool; 4], kept: bool) -> [Vec<u8>; 4] {
    let heard = empty.map(|empty| !empty);
    let [day, night] = PERIODS.map(|period| wanted_levels(random, period, heard, kept));
    [0, 1, 2, 3].map(|set| tuned(random, [day[set], night[set]]).text())
}

/// What lies behind a mark of emptiness: nothing, or a text that would be read or refused if it were looked at.
fn unread(random: &mut Random, text: Vec<u8>) -> Vec<u8> {
    match random.below(6) {
        0 => text,
        1 | 2 => {
            let draft = any_draft(random);
            bad_text(random, draft)
        }
        3 => (0..random.below(300)).map(|_| random.word() as u8).collect(),
        _ => Vec::new(),
    }
}

/// The request of this number under this seed.
pub fn case(seed: u64, index: u64) -> Case {
    // Apart from the texts of the same seed.
    let random = &mut Random::new(seed.wrapping_add(1 << 32), index);
    let pattern = if random.chance(40) { random.below(16) } else { 0 };
    let empty = [0, 1, 2, 3].map(|set| pattern >> set & 1 == 1);
    let kept = empty[OTHER_BEFORE] == empty[OTHER_AFTER] && random.chance(30);
    let edges = random.chance(70);
    let mut texts =
        if edges { tuned_texts(random, empty, kept) } else { [0, 1, 2, 3].map(|_| any_draft(random).text()) };
    if kept {
        texts[OTHER_AFTER] = texts[OTHER_BEFORE].clone();
    } else if random.chance(4) {
        texts[random.below(4)] = texts[random.below(4)].clone();
    }
    if random.chance(25) {
        for _ in 0..random.pick(&[1, 1, 1, 2, 3]) {
            let draft = any_draft(random);
            texts[random.below(4)] = bad_text(random, draft);
        }
    }
    for set in (0..4).filter(|&set| empty[set]) {
        texts[set] = unread(random, std::mem::take(&mut texts[set]));
    }
    let kind = match (edges, kept) {
        (true, false) => "edges",
        (true, true) => "edges with other lines kept",
        (false, false) => "any",
        (false, true) => "any with other lines kept",
    };
    Case { texts, empty, kind }
}
