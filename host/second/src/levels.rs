//! Entry levels, totals with their close marks, verdicts and the bare level of a study.

use crate::energy::{energy, level_of, Energy};
use crate::logarithm::Floor;
use crate::steps::{self, nearest_tenth, TENTH};
use crate::study::{Entry, Segment, Study};

/// The cell of an entry that is silent in a period.
pub const SILENT_CELL: i32 = -9999;

/// What 01 says of a close mark.
#[derive(Clone, Copy, PartialEq, Eq, Debug)]
pub enum Mark {
    Required,
    Forbidden,
    Free,
}

/// Tenths that may hang on a close mark; `louder` is the louder neighbour of the tie nearby, if any.
#[derive(Clone, Copy, PartialEq, Eq, Debug)]
pub struct Rounded {
    pub nearest: i64,
    pub louder: i64,
    pub mark: Mark,
}

impl Rounded {
    pub fn figure(&self, marked: bool) -> i64 {
        if marked {
            self.louder
        } else {
            self.nearest
        }
    }

    /// Each mark that is allowed, with the figure that it gives.
    pub fn choices(&self) -> Vec<(bool, i64)> {
        let marks: &[bool] = match self.mark {
            Mark::Required => &[true],
            Mark::Forbidden => &[false],
            Mark::Free => &[false, true],
        };
        marks.iter().map(|&marked| (marked, self.figure(marked))).collect()
    }

    /// A free mark that the figure shows.
    pub fn shown(&self) -> bool {
        self.mark == Mark::Free && self.louder != self.nearest
    }

    /// A free mark that only the close count shows.
    pub fn hidden(&self) -> bool {
        self.mark == Mark::Free && self.louder == self.nearest
    }

    fn at_tie(nearest: i64, tie: i64, required: bool) -> Rounded {
        let mark = if required { Mark::Required } else { Mark::Free };
        Rounded { nearest, louder: nearest_tenth(tie), mark }
    }

    fn clear(nearest: i64) -> Rounded {
        Rounded { nearest, louder: nearest, mark: Mark::Forbidden }
    }
}

/// The ground step's tenth and mark, on the exact value.
pub fn ground_rounded(value: Floor) -> Rounded {
    let nearest = nearest_tenth(value.whole);
    let tie = value.whole.div_euclid(TENTH) * TENTH + TENTH / 2;
    // A whole number is at most the value when it is at most the floor, and so on.
    if value.ceiling() <= tie - 2000 || value.whole >= tie + 2000 {
        return Rounded::clear(nearest);
    }
    let required = value.whole >= tie - 1000 && value.ceiling() <= tie + 1000;
    Rounded::at_tie(nearest, tie, required)
}

/// A total's tenth and mark from its sum of energies.
pub fn total_rounded(sum: Energy) -> Rounded {
    let mut nearest = nearest_tenth((1e7 * (sum.about().log10() - 30.0)) as i64);
    let tie_above = |tenth: i64| tenth * TENTH + TENTH / 2;
    while sum < energy(tie_above(nearest - 1)) {
        nearest -= 1;
    }
    while sum >= energy(tie_above(nearest)) {
        nearest += 1;
    }
    for tie in [tie_above(nearest - 1), tie_above(nearest)] {
        if energy(tie - 2000) < sum && sum < energy(tie + 2000) {
            let required = energy(tie - 1000) <= sum && sum <= energy(tie + 1000);
            return Rounded::at_tie(nearest, tie, required);
        }
    }
    Rounded::clear(nearest)
}

/// A figure in tenths to the nearest whole decibel, halves up, also below zero.
pub fn whole_decibels(figure: i64) -> i64 {
    (figure + 5).div_euclid(10)
}

#[derive(Clone, Copy, PartialEq, Eq, Debug)]
pub enum Period {
    Day,
    Night,
}

pub const PERIODS: [Period; 2] = [Period::Day, Period::Night];

impl Period {
    /// Tenths taken off 10·log Q.
    pub fn deduction(self) -> i64 {
        match self {
            Period::Day => 481,
            Period::Night => 433,
        }
    }

    /// Whole decibels.
    pub fn limit(self) -> i64 {
        match self {
            Period::Day => 68,
            Period::Night => 63,
        }
    }

    pub fn trains(self, entry: &Entry) -> i32 {
        match self {
            Period::Day => entry.day_trains,
            Period::Night => entry.night_trains,
        }
    }

    /// Met when the figure in tenths, to the nearest whole, reaches the limit.
    pub fn met(self, figure: i64) -> bool {
        whole_decibels(figure) >= self.limit()
    }
}

/// What a segment adds to each of its entries.
pub struct SegmentPart {
    /// Every step but ground, to its tenth, with the entered readings.
    pub tenths: i64,
    pub ground: Rounded,
    /// Every step's fence, ground with the rest, and the entered readings.
    pub fence: i64,
}

pub fn segment_part(segment: &Segment) -> SegmentPart {
    let ground = steps::ground(segment);
    let mut fences = vec![
        steps::distance(segment),
        steps::air(segment),
        steps::angle(segment.view_angle, segment.double_angle),
        steps::opposite(segment.opposite_angle, segment.view_angle),
    ];
    if segment.screened() {
        fences.push(steps::screen(segment));
    }
    let facade = if segment.facade == 1 { 25 } else { 0 };
    let readings = (segment.reflection_reading + segment.track_reading + segment.ballast_reading) as i64 + facade;
    SegmentPart {
        tenths: fences.iter().map(|&fence| nearest_tenth(fence)).sum::<i64>() + readings,
        ground: ground_rounded(ground),
        fence: fences.iter().sum::<i64>() + ground.whole + readings * TENTH,
    }
}

/// An entry's level in a period: tenths without the ground step, and its fence with it.
#[derive(Clone, Copy, Debug)]
pub struct PeriodPart {
    pub tenths: i64,
    pub fence: i64,
}

pub fn period_part(segment: &SegmentPart, entry: &Entry, period: Period) -> Option<PeriodPart> {
    let trains = period.trains(entry);
    if trains == 0 {
        return None;
    }
    let fences = [steps::speed(entry.speed), steps::vehicles(entry.vehicles), steps::trains(trains)];
    let readings = steps::vehicle_row(entry.row) - period.deduction();
    Some(PeriodPart {
        tenths: segment.tenths + fences.iter().map(|&fence| nearest_tenth(fence)).sum::<i64>() + readings,
        fence: segment.fence + fences.iter().sum::<i64>() + readings * TENTH,
    })
}

/// All parts of a study that do not hang on a free mark.
pub struct Workings {
    pub segments: Vec<SegmentPart>,
    /// The segment's position, then day and night; none where silent.
    pub entries: Vec<(usize, [Option<PeriodPart>; 2])>,
}

impl Workings {
    pub fn of(study: &Study) -> Workings {
        let segments: Vec<SegmentPart> = study.segments.iter().map(segment_part).collect();
        let entry_parts = |&(position, ref entry): &(usize, Entry)| {
            (position, PERIODS.map(|period| period_part(&segments[position], entry, period)))
        };
        let entries = study.entries.iter().map(entry_parts).collect();
        Workings { segments, entries }
    }

    /// Whether the segment has trains in the period.
    pub fn has_trains(&self, position: usize, period: Period) -> bool {
        self.entries.iter().any(|(segment, parts)| *segment == position && parts[period as usize].is_some())
    }

    /// The bare level (01's term) in microdecibels; none in a silent period.
    pub fn bare_level(&self, period: Period) -> Option<i64> {
        let fences = self.entries.iter().filter_map(|(_, parts)| parts[period as usize]).map(|part| part.fence);
        let sum = fences.map(energy).reduce(Energy::plus)?;
        Some(level_of(sum))
    }
}

/// The total over a period's levels in tenths; none in a silent period.
pub fn total_of(levels: impl Iterator<Item = i64>) -> Option<Rounded> {
    let sum = levels.map(|level| energy(level * TENTH)).reduce(Energy::plus)?;
    Some(total_rounded(sum))
}

#[cfg(test)]
mod tests {
    use super::*;

    fn exact(whole: i64) -> Rounded {
        ground_rounded(Floor { whole, exact: true })
    }

    fn inexact(whole: i64) -> Rounded {
        ground_rounded(Floor { whole, exact: false })
    }

    #[test]
    fn ground_marks_at_their_bounds() {
        assert_eq!(exact(-750_000), Rounded { nearest: -7, louder: -7, mark: Mark::Required });
        assert_eq!(exact(-51_000), Rounded { nearest: -1, louder: 0, mark: Mark::Required });
        assert_eq!(exact(-249_000), Rounded { nearest: -2, louder: -2, mark: Mark::Required });
        assert_eq!(exact(-48_000).mark, Mark::Forbidden);
        assert_eq!(exact(-252_000), Rounded { nearest: -3, louder: -3, mark: Mark::Forbidden });
        assert_eq!(exact(-251_200), Rounded { nearest: -3, louder: -2, mark: Mark::Free });
        // A value between two whole microdecibels is past the bound it has just crossed.
        assert_eq!(inexact(-51_001).mark, Mark::Free);
        assert_eq!(inexact(-51_000).mark, Mark::Required);
        assert_eq!(inexact(-49_000).mark, Mark::Free);
        assert_eq!(inexact(-49_001).mark, Mark::Required);
        assert_eq!(inexact(-52_001).mark, Mark::Forbidden);
        assert_eq!(inexact(-52_000).mark, Mark::Free);
        assert_eq!(inexact(-48_001).mark, Mark::Free);
        assert_eq!(inexact(-48_000).mark, Mark::Forbidden);
    }

    #[test]
    fn totals_of_01() {
        assert_eq!(total_of([600, 600].into_iter()).unwrap().nearest, 630);
        assert_eq!(total_of([631, 671].into_iter()).unwrap().nearest, 686);
        assert_eq!(total_of([526, 615, 553].into_iter()).unwrap().nearest, 629);
        assert_eq!(total_of([460, 549, 487].into_iter()).unwrap().nearest, 563);
        assert!(total_of([].into_iter()).is_none());
        assert!(Period::Day.met(675) && !Period::Day.met(674));
        assert!(Period::Night.met(625) && !Period::Night.met(624));
        assert!(!Period::Day.met(-5));
    }

    #[test]
    fn total_marks_at_their_bounds() {
        let tie = 675 * TENTH - TENTH / 2;
        let marked = |m: i64| total_rounded(energy(m));
        assert_eq!(marked(tie - 1000), Rounded { nearest: 674, louder: 675, mark: Mark::Required });
        assert_eq!(marked(tie - 1001), Rounded { nearest: 674, louder: 675, mark: Mark::Free });
        assert_eq!(marked(tie - 2000), Rounded { nearest: 674, louder: 674, mark: Mark::Forbidden });
        assert_eq!(marked(tie), Rounded { nearest: 675, louder: 675, mark: Mark::Required });
        assert_eq!(marked(tie + 1000).mark, Mark::Required);
        assert_eq!(marked(tie + 1001), Rounded { nearest: 675, louder: 675, mark: Mark::Free });
        assert_eq!(marked(tie + 2000).mark, Mark::Forbidden);
    }
}
