//! What free ground marks leave open: the energies that a study's entries may come to, by period. A segment has one
//! mark, which serves all of its entries in both periods.

use crate::energy::{energy, Energy};
use crate::entitlement::Level;
use crate::levels::{total_rounded, SegmentPart, Workings, PERIODS};
use crate::steps::TENTH;

/// More sums than any study of the tests comes to; a study with more stops the program.
const MOST_SUMS: usize = 1 << 16;

/// Energies by period; none where silent.
pub type Sums = [Option<Energy>; 2];

pub fn distinct<T: Ord>(mut list: Vec<T>) -> Vec<T> {
    list.sort();
    list.dedup();
    list
}

fn plus(one: Sums, other: Sums) -> Sums {
    [0, 1].map(|period: usize| one[period].into_iter().chain(other[period]).reduce(Energy::plus))
}

/// A segment's entries together, with this ground step.
fn segment_sums(workings: &Workings, position: usize, ground: i64) -> Sums {
    PERIODS.map(|period| {
        let of_segment = workings.entries.iter().filter(|(segment, _)| *segment == position);
        let parts = of_segment.filter_map(|(_, parts)| parts[period as usize]);
        parts.map(|part| energy((part.tenths + ground) * TENTH)).reduce(Energy::plus)
    })
}

/// The tenths that each segment's ground step may have.
pub fn possible_grounds(workings: &Workings) -> Vec<Vec<i64>> {
    let figures =
        |segment: &SegmentPart| distinct(segment.ground.choices().into_iter().map(|(_, figure)| figure).collect());
    workings.segments.iter().map(figures).collect()
}

/// Every sum that the study's entries may come to, with these ground steps to choose from in each segment.
pub fn possible_sums(workings: &Workings, grounds: &[Vec<i64>]) -> Vec<Sums> {
    let mut sums: Vec<Sums> = vec![[None; 2]];
    for (position, figures) in grounds.iter().enumerate() {
        let mut grown = Vec::new();
        for &ground in figures {
            let added = segment_sums(workings, position, ground);
            grown.extend(sums.iter().map(|&sum| plus(sum, added)));
        }
        sums = distinct(grown);
        assert!(sums.len() <= MOST_SUMS, "too many free marks in one study");
    }
    sums
}

/// Each total that may be reported for a sum of energies: two where its mark is free and shows.
pub fn possible_figures(sum: Option<Energy>) -> Vec<Level> {
    match sum {
        None => vec![None],
        Some(sum) => total_rounded(sum).choices().into_iter().map(|(_, figure)| Some(figure)).collect(),
    }
}
