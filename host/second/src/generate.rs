//! Texts for the differential run: seeded and repeatable, each from its seed and its number alone.
//! Segments and entries lean to ends of ranges and to near ties; then a figure or the text is spoilt.

use std::sync::OnceLock;

use crate::damage::{damage, out_of_form};
use crate::energy::{energy, Energy};
use crate::levels::{segment_part, Period, Workings, PERIODS};
use crate::spoil::{spoil_entry, spoil_segment};
use crate::steps::{self, nearest_tenth, TENTH};
use crate::study::{Entry, Segment, Study};

/// A small generator of even quality (splitmix64).
pub struct Random(u64);

impl Random {
    pub fn new(seed: u64, index: u64) -> Random {
        let mut random = Random(seed.wrapping_mul(0x9e37_79b9_7f4a_7c15) ^ index.wrapping_mul(0xd1b5_4a32_d192_ed03));
        random.word();
        random
    }

    pub fn word(&mut self) -> u64 {
        self.0 = self.0.wrapping_add(0x9e37_79b9_7f4a_7c15);
        let mut mixed = self.0;
        mixed = (mixed ^ (mixed >> 30)).wrapping_mul(0xbf58_476d_1ce4_e5b9);
        mixed = (mixed ^ (mixed >> 27)).wrapping_mul(0x94d0_49bb_1331_11eb);
        mixed ^ (mixed >> 31)
    }

    pub fn below(&mut self, count: usize) -> usize {
        (self.word() % count as u64) as usize
    }

    pub fn between(&mut self, low: i32, high: i32) -> i32 {
        low + self.below((high - low + 1) as usize) as i32
    }

    pub fn chance(&mut self, percent: usize) -> bool {
        self.below(100) < percent
    }

    pub fn pick<T: Copy>(&mut self, list: &[T]) -> T {
        list[self.below(list.len())]
    }

    /// Ends of a range, numbers beside them, or any number of it.
    fn leaning(&mut self, low: i32, high: i32) -> i32 {
        match self.below(8) {
            0 | 1 => low,
            2 | 3 => high,
            4 => (low + 1).min(high),
            5 => (high - 1).max(low),
            _ => self.between(low, high),
        }
    }
}

pub type SegmentNumbers = [i32; 15];
pub type EntryNumbers = [i32; 5];

/// A study before it is written down; it may hold any numbers.
#[derive(Clone, Default)]
pub struct Draft {
    pub segments: Vec<(SegmentNumbers, Vec<EntryNumbers>)>,
}

fn write_line(text: &mut Vec<u8>, numbers: &[i32]) {
    let words: Vec<String> = numbers.iter().map(|number| number.to_string()).collect();
    text.extend_from_slice(words.join(" ").as_bytes());
    text.push(b'\n');
}

impl Draft {
    pub fn text(&self) -> Vec<u8> {
        let mut contents = vec![self.segments.len() as i32];
        contents.extend(self.segments.iter().map(|(_, entries)| entries.len() as i32));
        let mut text = Vec::new();
        write_line(&mut text, &contents);
        for (segment, entries) in &self.segments {
            write_line(&mut text, segment);
            for entry in entries {
                write_line(&mut text, entry);
            }
        }
        text
    }

    pub fn entry_count(&self) -> usize {
        self.segments.iter().map(|(_, entries)| entries.len()).sum()
    }

    /// The study it stands for; every figure must be in range.
    fn study(&self) -> Study {
        let mut study = Study::default();
        for (position, (segment, entries)) in self.segments.iter().enumerate() {
            study.segments.push(Segment::from_numbers(segment));
            study.entries.extend(entries.iter().map(|entry| (position, Entry::from_numbers(entry))));
        }
        study
    }
}

/// Arguments sorted by how near their step lies to a tie, nearest first.
struct Stock {
    angles: Vec<(i32, i32)>,
    speeds: Vec<i32>,
    vehicles: Vec<i32>,
    trains: Vec<i32>,
    /// I and H whose ground step at d 25000 is within 2,400 microdecibels of a tie.
    grounds: Vec<(i32, i32)>,
    /// The angle step's tenths for θ = a, from 5 degrees on.
    equal_angles: Vec<i64>,
}

/// What the nearest tenth adds to a step, in microdecibels: above -50,000 and up to 50,000.
fn added(fence: i64) -> i64 {
    nearest_tenth(fence) * TENTH - fence
}

fn nearest_ties<T: Copy>(list: Vec<T>, fence: impl Fn(T) -> i64, keep: usize) -> Vec<T> {
    let mut keyed: Vec<(i64, T)> = list.into_iter().map(|item| (TENTH / 2 - added(fence(item)).abs(), item)).collect();
    keyed.sort_by_key(|pair| pair.0);
    keyed.into_iter().take(keep).map(|pair| pair.1).collect()
}

fn stock() -> &'static Stock {
    static STOCK: OnceLock<Stock> = OnceLock::new();
    STOCK.get_or_init(|| {
        let pairs = (5..=180).flat_map(|view| (view..=180).map(move |double| (view, double))).collect();
        let grounds = (1..=10).flat_map(|soft| (100..600).map(move |height| (soft, height)));
        let near_tie = |&(soft, height): &(i32, i32)| {
            ((600 * soft as i64 * (600 - height) as i64).rem_euclid(TENTH) - TENTH / 2).abs() <= 2400
        };
        Stock {
            angles: nearest_ties(pairs, |(view, double)| steps::angle(view, double), 400),
            speeds: nearest_ties((20..=300).collect(), steps::speed, 40),
            vehicles: nearest_ties((1..=60).collect(), steps::vehicles, 12),
            trains: nearest_ties((1..=2000).collect(), steps::trains, 200),
            grounds: grounds.filter(near_tie).collect(),
            equal_angles: (5..=180).map(|view| nearest_tenth(steps::angle(view, view))).collect(),
        }
    })
}

const DISTANCE: usize = 0;
const WINDOW: usize = 1;
const MEAN_HEIGHT: usize = 2;
const SOFT: usize = 3;
pub const VIEW: usize = 4;
pub const DOUBLE: usize = 5;
const SCREEN: usize = 6;
const SCREEN_DISTANCE: usize = 7;
const SCREEN_TOP: usize = 8;
const REFLECTION: usize = 9;
pub const TRACK: usize = 10;
const BALLAST: usize = 11;
pub const OPPOSITE: usize = 13;
const WALL: usize = 14;

/// In an entry; the night trains' place is the next to the day trains'.
pub const SPEED: usize = 1;
pub const DAY_TRAINS: usize = 3;

/// On either side of the first loss and of a metre's half, and at the ends.
const WALLS: [i32; 10] = [1, 14, 15, 24, 25, 34, 35, 94, 95, 100];

/// Trains that crawl, and both sides of the speed from which on a speed counts as typed.
const SLOW_SPEEDS: [i32; 9] = [1, 2, 5, 10, 15, 18, 19, 20, 21];

/// Good figures, anywhere in their ranges or leaning to the ends; no screen yet.
fn open_segment(random: &mut Random, lean: bool) -> SegmentNumbers {
    let mut any = |low, high| if lean { random.leaning(low, high) } else { random.between(low, high) };
    let view = any(5, 180);
    [
        any(1000, 30000),
        any(-5000, 5000),
        any(0, 5000).min(if lean { 5000 } else { 800 }),
        any(0, 10),
        view,
        any(view, 180),
        0,
        0,
        0,
        0,
        any(0, 150),
        any(-30, 0),
        any(0, 1),
        any(0, view),
        0,
    ]
}

/// A far wall behind some screens, none behind most.
fn any_wall(random: &mut Random) -> i32 {
    match random.below(10) {
        0..=2 => random.pick(&WALLS),
        3 => random.between(0, 100),
        _ => 0,
    }
}

fn put_screen(segment: &mut SegmentNumbers, distance: i32, top: i32, random: &mut Random) {
    segment[SCREEN] = random.between(1, 2);
    segment[SCREEN_DISTANCE] = distance;
    segment[SCREEN_TOP] = top;
    segment[REFLECTION] = if segment[SCREEN] == 2 { random.leaning(0, 100) } else { 0 };
    segment[BALLAST] = 0;
    segment[WALL] = any_wall(random);
}

fn is_good(segment: &SegmentNumbers) -> bool {
    Segment::from_numbers(segment).refusal().is_none()
}

/// A screen at any place, or at the ends of its ranges.
fn any_screen(random: &mut Random, segment: &mut SegmentNumbers) {
    let far = segment[DISTANCE] - 100;
    if random.chance(50) {
        let (place, top) = (random.leaning(100, far), random.leaning(-2000, 5000));
        return put_screen(segment, place, top, random);
    }
    // Near the line of sight, where most screens are neither refused nor without effect.
    let place = random.between(100, far);
    let sight = segment[WINDOW] as i64 * place as i64 / segment[DISTANCE] as i64;
    let top = (sight as i32 + random.between(-300, 300)).clamp(-2000, 5000);
    put_screen(segment, place, top, random);
}

/// Sets d so that d² + h² comes near a wanted sum; false when d is out of range.
fn aim_distance(random: &mut Random, segment: &mut SegmentNumbers, wanted: f64) -> bool {
    let height = segment[WINDOW] as f64;
    let distance = (wanted - height * height).max(0.0).sqrt() as i32 + random.between(-1, 1);
    segment[DISTANCE] = distance;
    (1000..=30000).contains(&distance)
}

/// Tries many changes of a segment and keeps the one that comes nearest to what is wanted. `change` makes one
/// and gives how far away it is, or nothing where it is of no use.
fn keep_nearest(
    random: &mut Random,
    segment: &mut SegmentNumbers,
    times: usize,
    change: impl Fn(&mut Random, &mut SegmentNumbers) -> Option<f64>,
) {
    let good = *segment;
    let mut best = f64::INFINITY;
    for _ in 0..times {
        let mut trial = good;
        if let Some(away) = change(random, &mut trial).filter(|&away| away < best) {
            best = away;
            *segment = trial;
        }
    }
}

/// The best of many windows for a wanted d² + h².
fn near_square(random: &mut Random, segment: &mut SegmentNumbers, wanted: f64) {
    keep_nearest(random, segment, 40, |random, trial| {
        trial[WINDOW] = random.between(-5000, 5000);
        let reached = aim_distance(random, trial, wanted);
        reached.then(|| (steps::slant_square(&Segment::from_numbers(trial)) as f64 - wanted).abs())
    });
}

fn near_distance_tie(random: &mut Random, segment: &mut SegmentNumbers) {
    let odd = 2 * random.between(-108, 40) - 1;
    near_square(random, segment, 6_250_000.0 * 10f64.powf(-odd as f64 / 100.0));
}

/// Air ties lie at slant distances of 1875, 3125, .. 29375 cm; right triangles meet them exactly.
fn near_air_tie(random: &mut Random, segment: &mut SegmentNumbers) {
    let slant = 1875 + 1250 * random.between(0, 22);
    let (across, up, whole) = random.pick(&[(1, 0, 1), (4, 3, 5), (24, 7, 25), (12, 5, 13), (3, 4, 5)]);
    let (distance, height) = (slant / whole * across, slant / whole * up);
    if random.chance(50) && slant % whole == 0 && distance >= 1000 && height <= 5000 {
        segment[DISTANCE] = distance;
        segment[WINDOW] = if random.chance(50) { height } else { -height };
        segment[DISTANCE] = (distance + random.pick(&[0, 0, 0, 1, -1])).clamp(1000, 30000);
        return;
    }
    near_square(random, segment, (slant as f64) * (slant as f64));
}

/// A ground step near a tie or near a bound of its mark.
fn near_ground_tie(random: &mut Random, segment: &mut SegmentNumbers) {
    if random.chance(30) {
        let (soft, height) = random.pick(&stock().grounds);
        segment[SOFT] = soft;
        segment[MEAN_HEIGHT] = height;
        segment[DISTANCE] = 25000 + random.pick(&[0, 0, 0, 0, 1, -1]);
        return;
    }
    segment[SOFT] = random.between(1, 10);
    segment[MEAN_HEIGHT] = random.between(80, 590);
    let factor = 600.0 * segment[SOFT] as f64 * (600 - segment[MEAN_HEIGHT].max(100)) as f64;
    let ties = ((factor * 1.079 - 50_000.0) / 100_000.0).floor() as i32;
    if ties < 0 {
        return;
    }
    let tie = 50_000.0 + 100_000.0 * random.between(0, ties) as f64;
    let bound = random.pick(&[0.0, 1000.0, -1000.0, 2000.0, -2000.0, 1500.0, -1500.0, 1200.0, -1800.0]);
    let distance = 2500.0 * 10f64.powf((tie + bound) / factor);
    segment[DISTANCE] = (distance as i32 + random.between(-1, 2)).clamp(1000, 30000);
}

/// A screen top on the line from source to window, or a centimetre off it.
fn near_shadow_edge(random: &mut Random, segment: &mut SegmentNumbers) {
    let parts = random.between(2, 20);
    let place = random.between(100, (30000 / parts).max(101)).max(1000 / parts + 1);
    let top = random.between(-5000 / parts, 5000 / parts).max(-2000);
    if random.chance(50) {
        segment[DISTANCE] = parts * place;
        segment[WINDOW] = parts * top;
        return put_screen(segment, place, top + random.pick(&[0, 0, 1, -1]), random);
    }
    let place = random.between(100, segment[DISTANCE] - 100);
    let sight = (segment[WINDOW] as i64 * place as i64).div_euclid(segment[DISTANCE] as i64) as i32;
    put_screen(segment, place, (sight + random.between(-1, 2)).clamp(-2000, 5000), random);
}

/// The path difference with the screen's top at another height.
fn difference_at(segment: &SegmentNumbers, top: i32) -> i64 {
    let mut trial = *segment;
    trial[SCREEN_TOP] = top;
    steps::path_difference(&Segment::from_numbers(&trial))
}

/// A path difference on either side of a limit: 2.5 m in shadow, 0.4 m in the light.
fn near_path_limit(random: &mut Random, segment: &mut SegmentNumbers, shadow: bool) {
    let limit = if shadow { steps::SHADOW_LIMIT } else { steps::ILLUMINATED_LIMIT };
    keep_nearest(random, segment, 12, |random, trial| {
        let place = random.between(100, trial[DISTANCE] - 100);
        put_screen(trial, place, 0, random);
        let sight = (trial[WINDOW] as i64 * place as i64).div_euclid(trial[DISTANCE] as i64) as i32;
        // Away from the line of sight the difference only grows; halve towards the limit.
        let (mut near, mut far) = if shadow { (sight, 5000) } else { (sight, -2000) };
        while (far - near).abs() > 1 {
            let middle = (near + far) / 2;
            if difference_at(trial, middle) > limit {
                far = middle
            } else {
                near = middle
            }
        }
        trial[SCREEN_TOP] = (if random.chance(50) { near } else { far }).clamp(-2000, 5000);
        Some((difference_at(trial, trial[SCREEN_TOP]) - limit).abs() as f64)
    });
}

/// Path differences that are exactly 2.5 m or 0.4 m, and their neighbours.
fn at_path_limit(random: &mut Random, segment: &mut SegmentNumbers) {
    let (place, top) = random.pick(&[(500, 375), (1500, 625), (3000, 875), (630, -160), (990, -200)]);
    segment[DISTANCE] = 2 * place;
    segment[WINDOW] = 0;
    put_screen(segment, place, top + random.pick(&[0, 0, 0, 1, -1]), random);
}

/// The screen nearest a tie of its step, among many.
fn near_screen_tie(random: &mut Random, segment: &mut SegmentNumbers) {
    keep_nearest(random, segment, 40, |random, trial| {
        any_screen(random, trial);
        let from_tie = |trial| TENTH / 2 - added(steps::screen(&Segment::from_numbers(trial))).abs();
        is_good(trial).then(|| from_tie(trial) as f64)
    });
}

/// A screen in the light whose reduced step comes near zero, where the cap begins to act, or near the tie
/// below it. In shadow no wall's loss reaches zero.
fn near_wall_cap(random: &mut Random, segment: &mut SegmentNumbers) {
    let wanted = random.pick(&[0, -TENTH / 2]);
    keep_nearest(random, segment, 40, |random, trial| {
        any_screen(random, trial);
        let screened = Segment::from_numbers(trial);
        if !is_good(trial) || steps::in_shadow(&screened) {
            return None;
        }
        let alone = steps::screen_alone(&screened);
        // The whole metres that come nearest, and any height that rounds to them.
        let metres = ((wanted - alone) as f64 / 500_000.0).round().clamp(2.0, 10.0) as i32;
        trial[WALL] = (10 * metres + random.between(-5, 4)).min(100);
        Some((alone + steps::wall_loss(trial[WALL]) - wanted).abs() as f64)
    });
}

fn near_angle_tie(random: &mut Random, segment: &mut SegmentNumbers) {
    (segment[VIEW], segment[DOUBLE]) = random.pick(&stock().angles);
    segment[OPPOSITE] = segment[OPPOSITE].min(segment[VIEW]);
}

/// 1.5·θ'/θ is a tie where 30·θ' is an odd multiple of θ.
fn near_opposite_tie(random: &mut Random, segment: &mut SegmentNumbers) {
    let odd = 2 * random.between(1, 15) - 1;
    let view = 30 * random.between(1, 6) + random.pick(&[0, 0, 1, -1]);
    segment[VIEW] = view.min(180);
    segment[DOUBLE] = segment[DOUBLE].max(segment[VIEW]);
    segment[OPPOSITE] = (odd * segment[VIEW] / 30 + random.pick(&[0, 0, 1])).clamp(0, segment[VIEW]);
}

/// What the nearest tenths of a segment's steps add together, in microdecibels.
fn added_by(segment: &SegmentNumbers) -> i64 {
    let part = segment_part(&Segment::from_numbers(segment));
    (part.tenths + part.ground.nearest) * TENTH - part.fence
}

/// Among many segments one whose steps are all rounded the same way, as far as can be.
fn one_sided_segment(random: &mut Random, louder: bool) -> SegmentNumbers {
    let gain = |segment: &SegmentNumbers| if louder { added_by(segment) } else { -added_by(segment) };
    let mut best = open_segment(random, false);
    for _ in 0..50 {
        let mut trial = best;
        [SCREEN, SCREEN_DISTANCE, SCREEN_TOP, REFLECTION, WALL].iter().for_each(|&field| trial[field] = 0);
        match random.below(4) {
            0 => near_distance_tie(random, &mut trial),
            1 => near_ground_tie(random, &mut trial),
            2 => near_shadow_edge(random, &mut trial),
            _ => near_air_tie(random, &mut trial),
        }
        if is_good(&trial) && gain(&trial) > gain(&best) {
            best = trial;
        }
    }
    // The angles are apart from the rest, so they are chosen after it.
    for _ in 0..50 {
        let mut trial = best;
        (trial[VIEW], trial[DOUBLE]) = random.pick(&stock().angles);
        trial[OPPOSITE] = random.between(0, trial[VIEW]);
        if gain(&trial) > gain(&best) {
            best = trial;
        }
    }
    best
}

/// A good segment of one of the kinds above.
pub fn good_segment(random: &mut Random) -> SegmentNumbers {
    loop {
        let lean = random.chance(30);
        let mut segment = open_segment(random, lean);
        if random.chance(25) {
            near_angle_tie(random, &mut segment);
        } else if random.chance(25) {
            near_opposite_tie(random, &mut segment);
        }
        match random.below(17) {
            0 | 1 => any_screen(random, &mut segment),
            2 | 3 => near_distance_tie(random, &mut segment),
            4 => near_air_tie(random, &mut segment),
            5..=8 => near_ground_tie(random, &mut segment),
            9 => near_shadow_edge(random, &mut segment),
            10 => near_path_limit(random, &mut segment, true),
            11 => near_path_limit(random, &mut segment, false),
            12 => near_screen_tie(random, &mut segment),
            13 => at_path_limit(random, &mut segment),
            14 => near_wall_cap(random, &mut segment),
            _ => {}
        }
        if is_good(&segment) {
            return segment;
        }
    }
}

pub fn good_entry(random: &mut Random) -> EntryNumbers {
    let stock = stock();
    let style = random.below(3);
    let mut any = |low, high, ties: &[i32]| match style {
        0 => random.between(low, high),
        1 => random.leaning(low, high),
        _ => random.pick(ties),
    };
    let mut entry = [
        any(1, 34, &[3, 7, 25, 34]),
        any(1, 300, &stock.speeds),
        any(1, 60, &stock.vehicles),
        any(0, 2000, &stock.trains),
        any(0, 2000, &stock.trains),
    ];
    if random.chance(10) {
        entry[SPEED] = random.pick(&SLOW_SPEEDS);
    }
    if random.chance(15) {
        entry[3] = 0;
    }
    if random.chance(15) {
        entry[4] = 0;
    }
    entry
}

/// Entry counts by segment, in all 1 to 96.
fn entry_counts(random: &mut Random) -> Vec<usize> {
    let mut counts = match random.below(20) {
        0 => vec![4; 24],
        1 => {
            let mut counts = vec![0; random.between(1, 24) as usize];
            let place = random.below(counts.len());
            counts[place] = random.pick(&[1, 95, 96]);
            counts
        }
        2..=10 => vec![1],
        11 => (0..24).map(|_| random.below(4)).collect(),
        _ => (0..random.between(1, 5)).map(|_| random.pick(&[0, 1, 1, 2, 3, 6])).collect(),
    };
    if counts.iter().sum::<usize>() == 0 {
        counts[0] = 1;
    }
    counts
}

/// Good segments with so many good entries each.
pub fn draft_of(random: &mut Random, counts: &[usize]) -> Draft {
    let mut draft = Draft::default();
    for &count in counts {
        let segment = good_segment(random);
        let entries = (0..count).map(|_| good_entry(random)).collect();
        draft.segments.push((segment, entries));
    }
    draft
}

fn good_draft(random: &mut Random) -> Draft {
    let counts = entry_counts(random);
    draft_of(random, &counts)
}

/// One segment and like entries, every step rounded the same way: the total is far from the bare level.
fn one_sided_draft(random: &mut Random) -> Draft {
    let louder = random.chance(50);
    let segment = one_sided_segment(random, louder);
    let chosen = |random: &mut Random, list: &[i32], fence: fn(i32) -> i64| {
        let gain = |item: &i32| if louder { added(fence(*item)) } else { -added(fence(*item)) };
        let some: Vec<i32> = (0..8).map(|_| random.pick(list)).collect();
        some.into_iter().max_by_key(gain).expect("eight numbers")
    };
    let stock = stock();
    let entry = [
        random.between(1, 34),
        chosen(random, &stock.speeds, steps::speed),
        chosen(random, &stock.vehicles, steps::vehicles),
        chosen(random, &stock.trains, steps::trains),
        chosen(random, &stock.trains, steps::trains),
    ];
    // n like entries raise the total by 10·log n, which has a rounding of its own.
    let like: Vec<i32> = (1..=30).collect();
    let count = if random.chance(60) { chosen(random, &like, steps::vehicles) } else { 1 };
    Draft { segments: vec![(segment, vec![entry; count as usize])] }
}

/// The levels of a period with unmarked ground steps: near enough to aim by.
fn levels_of(draft: &Draft, period: Period) -> Vec<Option<i64>> {
    let workings = Workings::of(&draft.study());
    let level = |(position, parts): &(usize, [Option<crate::levels::PeriodPart>; 2])| {
        parts[period as usize].map(|part| part.tenths + workings.segments[*position].ground.nearest)
    };
    workings.entries.iter().map(level).collect()
}

fn total_about(levels: impl Iterator<Item = i64>) -> Option<f64> {
    let sum = levels.map(|level| energy(level * TENTH)).reduce(Energy::plus)?;
    Some(1e7 * (sum.about().log10() - 30.0))
}

/// Changes one entry's trains so that the total comes near a tie or near a bound of its mark.
fn aim_at_total_tie(random: &mut Random, draft: &mut Draft) {
    let period = random.pick(&PERIODS);
    let levels = levels_of(draft, period);
    let heard: Vec<usize> = (0..levels.len()).filter(|&i| levels[i].is_some()).collect();
    if heard.len() < 2 {
        return;
    }
    let chosen = random.pick(&heard);
    let others = heard.iter().filter(|&&i| i != chosen).filter_map(|&i| levels[i]);
    let rest = 10f64.powf(total_about(others).expect("another entry") / 1e7);
    let mut entries = draft.segments.iter_mut().flat_map(|(_, entries)| entries.iter_mut());
    let entry = entries.nth(chosen).expect("the chosen entry");
    let field = DAY_TRAINS + period as usize;
    let without = levels[chosen].expect("a level") - nearest_tenth(steps::trains(entry[field]));
    let bound = random.pick(&[0.0, 1000.0, -1000.0, 1500.0, -1500.0, 2000.0, -2000.0]);
    let mut best = f64::INFINITY;
    for _ in 0..300 {
        let count = random.between(1, 2000);
        let level = without + nearest_tenth(steps::trains(count));
        let total = 1e7 * (rest + 10f64.powf(level as f64 / 100.0)).log10();
        let away = ((total - bound).rem_euclid(1e5) - 5e4).abs();
        if away < best {
            best = away;
            entry[field] = count;
        }
    }
}

/// Shifts a segment by about so many tenths: by its angle of view when that is far, else by its reading.
fn shift_segment(segment: &mut SegmentNumbers, shift: i64) {
    if !(0..=150).contains(&(segment[TRACK] as i64 + shift)) {
        let wanted = nearest_tenth(steps::angle(segment[VIEW], segment[DOUBLE])) + shift;
        let away = |view: &i32| (stock().equal_angles[*view as usize - 5] - wanted).abs();
        let view = (5..=180).min_by_key(away).expect("some angle");
        (segment[VIEW], segment[DOUBLE]) = (view, view);
        segment[OPPOSITE] = segment[OPPOSITE].min(view);
        return;
    }
    segment[TRACK] += shift as i32;
}

/// Brings a total near its verdict's edge, and the bare level near the bands of demand 3.
fn aim_at_verdict(random: &mut Random, draft: &mut Draft) {
    let period = random.pick(&PERIODS);
    let below = random.pick(&[5, 5, 5, 6, 6, 4, 9, 10, 1, 0]);
    for _ in 0..3 {
        let Some(total) = total_about(levels_of(draft, period).into_iter().flatten()) else {
            return;
        };
        let shift = period.limit() * 10 - below - nearest_tenth(total as i64);
        draft.segments.iter_mut().for_each(|(segment, _)| shift_segment(segment, shift));
    }
}

/// A text, how many cells are lent, and what it was made to try.
pub struct Case {
    pub text: Vec<u8>,
    pub cells: usize,
    pub kind: &'static str,
}

fn cell_count(random: &mut Random, entries: usize) -> usize {
    match random.below(20) {
        0 => (2 * entries).saturating_sub(1),
        1 => random.below(2 * entries + 1),
        2 => 192,
        3 => 2 * entries + random.below(20),
        _ => 2 * entries,
    }
}

/// One line's figures spoilt; the answer is the line's place in the text, from 0.
fn spoil_line(random: &mut Random, draft: &mut Draft) -> usize {
    let place = random.below(draft.segments.len());
    let line = 1 + draft.segments[..place].iter().map(|(_, entries)| 1 + entries.len()).sum::<usize>();
    let (segment, entries) = &mut draft.segments[place];
    if entries.is_empty() || random.chance(60) {
        spoil_segment(random, segment);
        return line;
    }
    let chosen = random.below(entries.len());
    spoil_entry(random, &mut entries[chosen]);
    line + 1 + chosen
}

fn spoil(random: &mut Random, draft: &mut Draft) {
    for _ in 0..random.pick(&[1, 1, 1, 2]) {
        spoil_line(random, draft);
    }
}

/// Half of the time a total is brought near a tie or near its verdict's edge.
pub fn aim(random: &mut Random, draft: &mut Draft) {
    match random.below(6) {
        0 => aim_at_verdict(random, draft),
        1 | 2 => aim_at_total_tie(random, draft),
        _ => {}
    }
}

/// A good study of any of the kinds above.
pub fn any_draft(random: &mut Random) -> Draft {
    let one_sided = random.chance(8);
    let mut draft = if one_sided { one_sided_draft(random) } else { good_draft(random) };
    aim(random, &mut draft);
    draft
}

/// A text with spoilt figures, and the name of that.
fn spoilt(random: &mut Random, mut draft: Draft) -> (Vec<u8>, &'static str) {
    spoil(random, &mut draft);
    (draft.text(), "spoilt figures")
}

/// A damaged text, at times of spoilt figures, or one line spoilt and out of form, and the name of the damage.
fn damaged(random: &mut Random, mut draft: Draft) -> (Vec<u8>, &'static str) {
    match random.below(10) {
        0 => {
            let line = spoil_line(random, &mut draft);
            return (out_of_form(random, &draft.text(), line), "spoilt and out of form");
        }
        1 => spoil(random, &mut draft),
        _ => {}
    }
    damage(random, &draft)
}

/// A text that is refused, but for few whose fault makes no difference.
pub fn bad_text(random: &mut Random, draft: Draft) -> Vec<u8> {
    let fault = if random.chance(45) { spoilt } else { damaged };
    fault(random, draft).0
}

/// The text of this number under this seed.
pub fn case(seed: u64, index: u64) -> Case {
    let random = &mut Random::new(seed, index);
    let draft = any_draft(random);
    let cells = cell_count(random, draft.entry_count());
    let (text, kind) = match random.below(100) {
        0..=15 => spoilt(random, draft),
        16..=35 => damaged(random, draft),
        _ => (draft.text(), "good"),
    };
    Case { text, cells, kind }
}
