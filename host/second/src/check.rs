//! Whether an observed answer of railnoise_levels, with its cells, is one that 01 allows.
//!
//! Cells show most marks: where a free ground mark changes the tenth, the cells of the segment's
//! entries tell which was taken, and all of them must agree. The other free marks show only in the
//! close counts; there must be one choice of them that explains both periods' counts at once.

use crate::interface::{Answer, PeriodAnswer};
use crate::levels::{total_of, Mark, Period, Rounded, Workings, PERIODS, SILENT_CELL};
use crate::reader::{read, Refusal};
use crate::steps::TENTH;
use crate::study::Study;

pub const CELLS_SHORT: u32 = 24;
/// Microdecibels: demand 3's bound on a total, and its verdict bands below and above the limit.
const ACCURACY: i64 = 460_000;
const SURELY_MET: i64 = -40_000;
const SURELY_NOT: i64 = -960_000;

/// What an answer got wrong first.
#[derive(Clone, Copy, PartialEq, Eq, Debug)]
pub enum Part {
    Refusal,
    Cells,
    Level,
    CloseCount,
    Verdict,
    Accuracy,
}

#[derive(Debug)]
pub struct Difference {
    pub part: Part,
    pub words: String,
}

pub fn difference<T>(part: Part, words: String) -> Result<T, Difference> {
    Err(Difference { part, words })
}

/// What an allowed answer contained.
#[derive(Clone, Default, Debug)]
pub struct Report {
    pub refusal: u32,
    /// Segments with trains, by the mark of their ground step.
    pub ground_required: u32,
    pub ground_free_shown: u32,
    pub ground_free_hidden: u32,
    pub total_required: u32,
    pub total_free: u32,
    /// Free marks that the figures show as taken, and as not taken.
    pub taken: u32,
    pub not_taken: u32,
    /// 100,000·figure less the bare level, for each period with trains.
    pub differences: Vec<i64>,
    /// d, H and I of each ground step whose free mark shows, and whether it was taken.
    pub shown: Vec<((i32, i32, i32), bool)>,
    /// Positions of the segments with trains whose ground mark is free.
    pub free_grounds: Vec<usize>,
}

impl Report {
    /// Adds the marks of another answer, and keeps the lowest and the highest difference of all.
    pub fn gather(&mut self, other: &Report) {
        self.ground_required += other.ground_required;
        self.ground_free_shown += other.ground_free_shown;
        self.ground_free_hidden += other.ground_free_hidden;
        self.total_required += other.total_required;
        self.total_free += other.total_free;
        self.taken += other.taken;
        self.not_taken += other.not_taken;
        let (lowest, highest) = self.extremes();
        let list = other.differences.iter().copied();
        self.differences = vec![list.clone().fold(lowest, i64::min), list.fold(highest, i64::max)];
    }

    /// The lowest difference, or 0 where none is below it, and the highest likewise.
    fn extremes(&self) -> (i64, i64) {
        let list = self.differences.iter().copied();
        (list.clone().fold(0, i64::min), list.fold(0, i64::max))
    }

    pub fn marks(&self) -> String {
        format!(
            "marks required {} ground {} total, free {} ground shown {} ground hidden {} total, taken {} not taken {}",
            self.ground_required,
            self.total_required,
            self.ground_free_shown,
            self.ground_free_hidden,
            self.total_free,
            self.taken,
            self.not_taken
        )
    }

    pub fn largest_difference(&self) -> String {
        let (lowest, highest) = self.extremes();
        format!("largest difference {:+.6} {:+.6} dB", highest as f64 / 1e6, lowest as f64 / 1e6)
    }
}

/// The one answer to a refused text or to too few cells.
fn check_refusal(expected: Refusal, before: &[i32], after: &[i32], answer: &Answer) -> Result<Report, Difference> {
    if *answer != Answer::refused(expected) {
        return difference(Part::Refusal, format!("expected {:?}, got {:?}", Answer::refused(expected), answer));
    }
    if before != after {
        return difference(Part::Cells, "cells changed by a refusal".to_string());
    }
    Ok(Report { refusal: expected.number, ..Report::default() })
}

/// The marks that the cells show, by segment; a segment whose free mark does not show is left open.
fn marks_shown(workings: &Workings, cells: &[i32]) -> Result<Vec<Option<bool>>, Difference> {
    let count = workings.entries.len();
    let mut marks: Vec<Option<bool>> = workings
        .segments
        .iter()
        .map(|segment| match segment.ground.mark {
            Mark::Required => Some(true),
            Mark::Forbidden => Some(false),
            Mark::Free => None,
        })
        .collect();
    for period in PERIODS {
        for (i, (position, parts)) in workings.entries.iter().enumerate() {
            let cell = cells[period as usize * count + i];
            let Some(part) = parts[period as usize] else {
                if cell != SILENT_CELL {
                    return difference(Part::Cells, format!("{period:?} entry {}: {cell}, not silent", i + 1));
                }
                continue;
            };
            let ground = workings.segments[*position].ground;
            let step = cell as i64 - part.tenths;
            if ground.shown() && marks[*position].is_none() {
                marks[*position] = Some(step == ground.louder);
            }
            let expected = ground.figure(marks[*position].unwrap_or(false));
            if step != expected {
                let words = format!("{period:?} entry {}: {cell}, expected {}", i + 1, part.tenths + expected);
                return difference(Part::Cells, words);
            }
        }
    }
    Ok(marks)
}

/// Whether the total's mark may be this one, given the figure shown.
fn total_allows(total: &Rounded, marked: bool, figure: i64) -> bool {
    total.choices().contains(&(marked, figure))
}

/// A period's level and verdict; gives the total over its cells.
fn check_period(period: Period, cells: &[i32], seen: &PeriodAnswer) -> Result<Option<Rounded>, Difference> {
    let levels = cells.iter().filter(|&&cell| cell != SILENT_CELL).map(|&cell| cell as i64);
    let Some(total) = total_of(levels) else {
        if *seen != PeriodAnswer::SILENT {
            return difference(Part::Level, format!("{period:?}: {seen:?}, not silent"));
        }
        return Ok(None);
    };
    let figure = seen.level as i64;
    if seen.silent != 0 || ![false, true].iter().any(|&marked| total_allows(&total, marked, figure)) {
        return difference(Part::Level, format!("{period:?}: {seen:?}, expected {total:?}"));
    }
    if seen.met != period.met(figure) as u8 {
        return difference(Part::Verdict, format!("{period:?}: {seen:?}"));
    }
    Ok(Some(total))
}

/// One choice of the marks that do not show must explain the close counts of both periods.
fn counts_explained(
    workings: &Workings,
    marks: &[Option<bool>],
    totals: &[Option<Rounded>; 2],
    answer: &Answer,
) -> bool {
    // Marks taken for certain by period; open marks by whether they count by day, by night or in both.
    let mut base = [0i64; 2];
    let mut open = [0i64; 2];
    let mut open_both = 0i64;
    for (position, mark) in marks.iter().enumerate() {
        let has = PERIODS.map(|period| workings.has_trains(position, period));
        match (mark, has) {
            (Some(true), _) => (0..2).for_each(|p| base[p] += has[p] as i64),
            (Some(false), _) | (None, [false, false]) => {}
            (None, [true, true]) => open_both += 1,
            (None, [day, _]) => open[!day as usize] += 1,
        }
    }
    let seen = answer.periods();
    (0..=open_both).any(|both| {
        (0..2).all(|p| {
            let rest = seen[p].close as i64 - base[p] - both;
            [false, true].iter().any(|&marked| {
                let total_fits = match &totals[p] {
                    Some(total) => total_allows(total, marked, seen[p].level as i64),
                    None => !marked,
                };
                total_fits && (0..=open[p]).contains(&(rest - marked as i64))
            })
        })
    })
}

/// Demand 3 for one period: the total against the bare level, and the verdict's bands.
fn check_accuracy(period: Period, bare: i64, seen: &PeriodAnswer) -> Result<i64, Difference> {
    let away = seen.level as i64 * TENTH - bare;
    let limit = period.limit() * 10 * TENTH;
    let words = format!("{period:?}: {seen:?}, bare level {bare}");
    if away.abs() > ACCURACY {
        return difference(Part::Accuracy, words);
    }
    if bare >= limit + SURELY_MET && seen.met != 1 || bare < limit + SURELY_NOT && seen.met != 0 {
        return difference(Part::Accuracy, words);
    }
    Ok(away)
}

/// A free mark that the figure shows, counted by how it was chosen.
fn note_choice(report: &mut Report, rounded: &Rounded, taken: bool) {
    if rounded.shown() {
        report.taken += taken as u32;
        report.not_taken += !taken as u32;
    }
}

/// The marks of an allowed answer: of each segment with trains, and of each total.
fn count_marks(
    study: &Study,
    workings: &Workings,
    marks: &[Option<bool>],
    totals: &[Option<Rounded>; 2],
    answer: &Answer,
) -> Report {
    let mut report = Report::default();
    for (position, segment) in study.segments.iter().enumerate() {
        if !PERIODS.iter().any(|&period| workings.has_trains(position, period)) {
            continue;
        }
        let ground = &workings.segments[position].ground;
        let taken = marks[position] == Some(true);
        note_choice(&mut report, ground, taken);
        report.ground_required += (ground.mark == Mark::Required) as u32;
        report.ground_free_shown += ground.shown() as u32;
        report.ground_free_hidden += ground.hidden() as u32;
        if ground.mark == Mark::Free {
            report.free_grounds.push(position);
        }
        if ground.shown() {
            report.shown.push(((segment.distance, segment.mean_height, segment.soft_ground), taken));
        }
    }
    for (total, seen) in totals.iter().zip(answer.periods()) {
        if let Some(total) = total {
            note_choice(&mut report, total, seen.level as i64 == total.louder);
            report.total_required += (total.mark == Mark::Required) as u32;
            report.total_free += (total.mark == Mark::Free) as u32;
        }
    }
    report
}

fn check_levels(study: &Study, before: &[i32], after: &[i32], answer: &Answer) -> Result<Report, Difference> {
    let count = study.entries.len();
    if answer.refusal != 0 || answer.line != 0 {
        return difference(Part::Refusal, format!("a good text refused: {answer:?}"));
    }
    if before[2 * count..] != after[2 * count..] {
        return difference(Part::Cells, "a cell past 2t changed".to_string());
    }
    let workings = Workings::of(study);
    let marks = marks_shown(&workings, after)?;
    let day = check_period(Period::Day, &after[..count], &answer.day)?;
    let night = check_period(Period::Night, &after[count..2 * count], &answer.night)?;
    let totals = [day, night];
    if !counts_explained(&workings, &marks, &totals, answer) {
        return difference(Part::CloseCount, format!("no marks explain {answer:?}"));
    }
    let mut report = count_marks(study, &workings, &marks, &totals, answer);
    for (period, seen) in PERIODS.into_iter().zip(answer.periods()) {
        if let Some(bare) = workings.bare_level(period) {
            report.differences.push(check_accuracy(period, bare, &seen)?);
        }
    }
    Ok(report)
}

/// Whether 01 allows this answer with these cells after it, for cells before it and for what a request's reading came
/// to: a study, whose cells are then counted, or a refusal.
pub fn check_outcome(
    outcome: Result<Study, Refusal>,
    before: &[i32],
    after: &[i32],
    answer: &Answer,
) -> Result<Report, Difference> {
    assert_eq!(before.len(), after.len());
    match outcome {
        Err(refusal) => check_refusal(refusal, before, after, answer),
        Ok(study) if before.len() < 2 * study.entries.len() => {
            check_refusal(Refusal { number: CELLS_SHORT, line: 0 }, before, after, answer)
        }
        Ok(study) => check_levels(&study, before, after, answer),
    }
}

/// The same for one text.
pub fn check(text: &[u8], before: &[i32], after: &[i32], answer: &Answer) -> Result<Report, Difference> {
    check_outcome(read(text), before, after, answer)
}

#[cfg(test)]
mod tests {
    use super::*;

    fn accurate(period: Period, bare: i64, level: i32, met: u8) -> bool {
        let seen = PeriodAnswer { silent: 0, level, close: 0, met };
        check_accuracy(period, bare, &seen).is_ok()
    }

    #[test]
    fn demand_3_at_its_bounds() {
        assert!(accurate(Period::Day, 50_040_000, 505, 0) && !accurate(Period::Day, 50_039_999, 505, 0));
        assert!(accurate(Period::Day, 50_960_000, 505, 0) && !accurate(Period::Day, 50_960_001, 505, 0));
        assert!(accurate(Period::Day, 67_959_999, 675, 0) && !accurate(Period::Day, 67_960_000, 675, 0));
        assert!(accurate(Period::Day, 67_040_000, 674, 1) && !accurate(Period::Day, 67_039_999, 674, 1));
        assert!(accurate(Period::Night, 62_959_999, 625, 0) && !accurate(Period::Night, 62_960_000, 625, 0));
        assert!(accurate(Period::Night, 62_040_000, 624, 1) && !accurate(Period::Night, 62_039_999, 624, 1));
    }
}
