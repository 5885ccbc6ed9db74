//! Answers made by this implementation itself: they stand in for the product until that exists.
//! Free marks are taken by a fixed rule, so that both choices come up: a ground step's by its segment's figures, a
//! total's by the number of its levels, that of two levels combined by their sum.

use crate::check::CELLS_SHORT;
use crate::entitlement::{in_period, judged, Level, Request, ALTERED_AFTER, ALTERED_BEFORE, OTHER_AFTER, OTHER_BEFORE};
use crate::interface::{
    Answer, Combined, EntitlementAnswer, EntitlementPeriod, MergedAnswer, PeriodAnswer, SpeedAnswer, MOST_CELLS,
};
use crate::levels::{period_part, total_of, Mark, Period, PeriodPart, Rounded, Workings, PERIODS, SILENT_CELL};
use crate::merging::read_both;
use crate::reader::{read, Refusal};
use crate::speed::{self, place_of, stays_below, ENTRY_NUMBER, NO_SPEED, SPEEDS};
use crate::study::{Entry, Segment, Study};

fn taken(rounded: &Rounded, if_free: bool) -> bool {
    match rounded.mark {
        Mark::Required => true,
        Mark::Forbidden => false,
        Mark::Free => if_free,
    }
}

/// `turned` takes each free mark the other way.
fn ground_mark(segment: &Segment, rounded: &Rounded, turned: bool) -> bool {
    let even = (segment.distance + segment.mean_height + segment.soft_ground) % 2 == 0;
    taken(rounded, even != turned)
}

/// The mark that each segment's ground step gets.
fn ground_marks(study: &Study, workings: &Workings, turned: bool) -> Vec<bool> {
    let with_parts = study.segments.iter().zip(&workings.segments);
    with_parts.map(|(segment, part)| ground_mark(segment, &part.ground, turned)).collect()
}

/// The entries' levels in a period.
fn period_cells(period: Period, workings: &Workings, marks: &[bool]) -> Vec<i32> {
    let level = |(position, parts): &(usize, [Option<PeriodPart>; 2])| {
        let ground = workings.segments[*position].ground.figure(marks[*position]);
        parts[period as usize].map_or(SILENT_CELL, |part| (part.tenths + ground) as i32)
    };
    workings.entries.iter().map(level).collect()
}

fn period_answer(period: Period, workings: &Workings, marks: &[bool], cells: &[i32], turned: bool) -> PeriodAnswer {
    let levels: Vec<i64> = cells.iter().filter(|&&cell| cell != SILENT_CELL).map(|&cell| cell as i64).collect();
    let Some(total) = total_of(levels.iter().copied()) else {
        return PeriodAnswer::SILENT;
    };
    // By the number of levels, not by their figures: so a total never falls where a speed rises, as the header says.
    let total_mark = taken(&total, levels.len().is_multiple_of(2) != turned);
    let marked = (0..marks.len()).filter(|&position| marks[position] && workings.has_trains(position, period));
    let figure = total.figure(total_mark);
    PeriodAnswer {
        silent: 0,
        level: figure as i32,
        close: marked.count() as u32 + total_mark as u32,
        met: period.met(figure) as u8,
    }
}

fn answered(study: &Study, cells: &mut [i32], turned: bool) -> Answer {
    let workings = Workings::of(study);
    let marks = ground_marks(study, &workings, turned);
    let of_periods = PERIODS.map(|period| period_cells(period, &workings, &marks));
    cells[..2 * study.entries.len()].copy_from_slice(&of_periods.concat());
    let [day, night] =
        PERIODS.map(|period| period_answer(period, &workings, &marks, &of_periods[period as usize], turned));
    Answer { refusal: 0, line: 0, day, night }
}

/// What a request's reading came to: a study, whose cells are then counted, or a refusal.
fn answer_to(outcome: Result<Study, Refusal>, cells: &mut [i32], turned: bool) -> Answer {
    match outcome {
        Err(refusal) => Answer::refused(refusal),
        Ok(study) if cells.len() < 2 * study.entries.len() => Answer::refused(Refusal { number: CELLS_SHORT, line: 0 }),
        Ok(study) => answered(&study, cells, turned),
    }
}

pub fn levels(text: &[u8], cells: &mut [i32], turned: bool) -> Answer {
    answer_to(read(text), cells, turned)
}

pub fn merged_levels(texts: [&[u8]; 2], cells: &mut [i32], turned: bool) -> MergedAnswer {
    let (text, outcome) = read_both(texts);
    MergedAnswer::of(text, answer_to(outcome, cells, turned))
}

fn combined(one: Level, other: Level, turned: bool) -> Combined {
    let levels: Vec<i64> = [one, other].into_iter().flatten().collect();
    let Some(total) = total_of(levels.iter().copied()) else {
        return Combined::SILENT;
    };
    let mark = taken(&total, (levels.iter().sum::<i64>() % 2 == 0) != turned);
    Combined { silent: 0, level: total.figure(mark) as i32, close: mark as u8 }
}

fn entitlement_period(period: Period, levels: [Level; 4], turned: bool) -> EntitlementPeriod {
    let prevailing = combined(levels[ALTERED_BEFORE], levels[OTHER_BEFORE], turned);
    let relevant = combined(levels[ALTERED_AFTER], levels[OTHER_AFTER], turned);
    judged(period, prevailing, relevant, levels[OTHER_AFTER])
}

pub fn entitlement(request: &Request, turned: bool) -> EntitlementAnswer {
    let mut reported = [[None; 2]; 4];
    for (set, lines) in request.iter().enumerate().filter(|(_, lines)| !lines.empty) {
        let answer = levels(lines.text, &mut [0; MOST_CELLS], turned);
        if answer.refusal != 0 {
            let refusal = Refusal { number: answer.refusal, line: answer.line };
            return EntitlementAnswer::refused(set as u32 + 1, refusal);
        }
        reported[set] = answer.periods().map(|period| period.figure());
    }
    let [day, night] = PERIODS.map(|period| entitlement_period(period, in_period(&reported, period), turned));
    EntitlementAnswer { day, night, entitled: day.entitled | night.entitled, ..EntitlementAnswer::default() }
}

/// The highest speed at which the total that `levels` reports stays below the limit.
fn highest_below(study: &Study, place: usize, period: Period, limit: i32, turned: bool) -> Option<i32> {
    let (position, entry) = study.entries[place];
    let mut workings = Workings::of(study);
    let marks = ground_marks(study, &workings, turned);
    SPEEDS.rev().find(|&speed| {
        let passing = Entry { speed, ..entry };
        workings.entries[place].1 = PERIODS.map(|period| period_part(&workings.segments[position], &passing, period));
        let cells = period_cells(period, &workings, &marks);
        stays_below(period_answer(period, &workings, &marks, &cells, turned).figure(), limit)
    })
}

pub fn highest_speed(request: &speed::Request, turned: bool) -> SpeedAnswer {
    let study = match read(request.text) {
        Err(refusal) => return SpeedAnswer::refused(refusal),
        Ok(study) => study,
    };
    let Some(place) = place_of(&study, request.entry) else {
        return SpeedAnswer::refused(Refusal { number: ENTRY_NUMBER, line: 0 });
    };
    match highest_below(&study, place, request.period, request.limit, turned) {
        None => SpeedAnswer::refused(Refusal { number: NO_SPEED, line: 0 }),
        Some(speed) => SpeedAnswer::answered(speed),
    }
}

#[cfg(feature = "mock")]
unsafe fn bytes<'a>(text: *const u8, length: usize) -> &'a [u8] {
    if text.is_null() {
        &[]
    } else {
        std::slice::from_raw_parts(text, length)
    }
}

/// The product's function, answered by this implementation.
///
/// # Safety
/// As in include/railnoise.h: each pointer is null with length 0, or good for its length.
#[cfg(feature = "mock")]
#[no_mangle]
pub unsafe extern "C" fn railnoise_levels(
    text: *const u8,
    text_length: usize,
    cells: *mut i32,
    cell_count: usize,
) -> Answer {
    let cells = if cells.is_null() { &mut [] } else { std::slice::from_raw_parts_mut(cells, cell_count) };
    levels(bytes(text, text_length), cells, false)
}

/// The second function, likewise.
///
/// # Safety
/// As in include/railnoise_requests.h: each pointer is null with length 0, or good for its length.
#[cfg(feature = "mock")]
#[no_mangle]
pub unsafe extern "C" fn railnoise_entitlement(
    altered_before: *const u8,
    altered_before_length: usize,
    altered_before_empty: bool,
    altered_after: *const u8,
    altered_after_length: usize,
    altered_after_empty: bool,
    other_before: *const u8,
    other_before_length: usize,
    other_before_empty: bool,
    other_after: *const u8,
    other_after_length: usize,
    other_after_empty: bool,
) -> EntitlementAnswer {
    let lines = |text, length, empty| crate::entitlement::Lines { text: bytes(text, length), empty };
    let request = [
        lines(altered_before, altered_before_length, altered_before_empty),
        lines(altered_after, altered_after_length, altered_after_empty),
        lines(other_before, other_before_length, other_before_empty),
        lines(other_after, other_after_length, other_after_empty),
    ];
    entitlement(&request, false)
}

/// The third function, likewise.
///
/// # Safety
/// As in include/railnoise_requests.h: each pointer is null with length 0, or good for its length.
#[cfg(feature = "mock")]
#[no_mangle]
pub unsafe extern "C" fn railnoise_merged_levels(
    one: *const u8,
    one_length: usize,
    other: *const u8,
    other_length: usize,
    cells: *mut i32,
    cell_count: usize,
) -> MergedAnswer {
    let cells = if cells.is_null() { &mut [] } else { std::slice::from_raw_parts_mut(cells, cell_count) };
    merged_levels([bytes(one, one_length), bytes(other, other_length)], cells, false)
}

/// The fourth function, likewise.
///
/// # Safety
/// As in include/railnoise_requests.h: the pointer is null with length 0, or good for its length.
#[cfg(feature = "mock")]
#[no_mangle]
pub unsafe extern "C" fn railnoise_highest_speed(
    text: *const u8,
    text_length: usize,
    entry: u32,
    night: bool,
    limit: i32,
) -> SpeedAnswer {
    let period = PERIODS[night as usize];
    highest_speed(&speed::Request { text: bytes(text, text_length), entry, period, limit }, false)
}
