//! The steps of 01, with 02's L1 and L4. Each gives its fence (01's term): the largest whole number of
//! microdecibels not above the formula's exact value. Ties lie on whole microdecibels, so the nearest
//! tenth of the fence is the nearest tenth of the exact value.

use std::sync::OnceLock;

use crate::big::Big;
use crate::logarithm::{multiple_of_log, Floor};
use crate::study::Segment;

/// Microdecibels in a tenth of a decibel.
pub const TENTH: i64 = 100_000;
/// Hundred-thousandths of a centimetre: 2.5 m and 0.4 m.
pub const SHADOW_LIMIT: i64 = 25_000_000;
pub const ILLUMINATED_LIMIT: i64 = 4_000_000;

const PI_BILLIONTHS: i64 = 3_141_592_654;
const BILLION: i64 = 1_000_000_000;

/// Table A1.1's rolling figures in tenths, rows 1 to 34.
const VEHICLE_TABLE: [i64; 34] = [
    148, 148, 167, 108, 108, 129, 71, 60, 60, 113, 84, 84, 70, 70, 158, 149, 120, 150, 80, 75, 148, 166, 148, 166, 180,
    166, 166, 166, 166, 148, 148, 148, 148, 148,
];

/// The nearest tenth, halves upward, also below zero.
pub fn nearest_tenth(fence: i64) -> i64 {
    (fence + TENTH / 2).div_euclid(TENTH)
}

pub fn vehicle_row(row: i32) -> i64 {
    VEHICLE_TABLE[row as usize - 1]
}

/// 31.2 + 20·log V; a train below 20 km/h is taken at the level for 20.
pub fn speed(typed: i32) -> i64 {
    let counted = if typed < 20 { 20 } else { typed };
    31_200_000 + multiple_of_log(20_000_000, counted as u64, 1).whole
}

/// 10·log N.
pub fn vehicles(count: i32) -> i64 {
    multiple_of_log(10_000_000, count as u64, 1).whole
}

/// 10·log Q, before the period's 48.1 or 43.3; Q above zero.
pub fn trains(count: i32) -> i64 {
    multiple_of_log(10_000_000, count as u64, 1).whole
}

fn square(number: i32) -> i64 {
    number as i64 * number as i64
}

/// d² + h², square centimetres.
pub fn slant_square(segment: &Segment) -> i64 {
    square(segment.distance) + square(segment.window_height)
}

/// -10·log(d'/25 m), which is -5·log((d² + h²)/2500²).
pub fn distance(segment: &Segment) -> i64 {
    multiple_of_log(-5_000_000, slant_square(segment) as u64, 6_250_000).whole
}

/// The largest whole number whose square is at most n.
pub fn whole_root(n: u128) -> u128 {
    let mut root = (n as f64).sqrt() as u128;
    while root * root > n {
        root -= 1;
    }
    while (root + 1) * (root + 1) <= n {
        root += 1;
    }
    root
}

/// 0.2 - 0.008·d', d' in metres: 200,000 less 80·d' with d' in centimetres.
pub fn air(segment: &Segment) -> i64 {
    let loss_square = 6400 * slant_square(segment) as u128;
    let root = whole_root(loss_square);
    let loss = if root * root == loss_square { root } else { root + 1 };
    200_000 - loss as i64
}

/// The ground step's exact value, -0.0006·I·(600 - H)·log(d/2500): zero behind a screen and up to 25 m.
pub fn ground(segment: &Segment) -> Floor {
    let height = segment.mean_height.clamp(100, 600) as i64;
    let factor = -600 * segment.soft_ground as i64 * (600 - height);
    if segment.screened() || segment.distance <= 2500 || factor == 0 {
        return Floor { whole: 0, exact: true };
    }
    multiple_of_log(factor, segment.distance as u64, 2500)
}

/// A length from its two sides in centimetres, cut to hundred-thousandths of a centimetre.
fn cut_length(across: i32, up: i32) -> i64 {
    let sum = (square(across) + square(up)) as u128;
    whole_root(sum * 10_000_000_000) as i64
}

/// Source to screen top and on to the window, less source to window; hundred-thousandths of a centimetre.
pub fn path_difference(segment: &Segment) -> i64 {
    let to_top = cut_length(segment.screen_distance, segment.screen_top);
    let to_window = cut_length(segment.distance - segment.screen_distance, segment.window_height - segment.screen_top);
    let direct = cut_length(segment.distance, segment.window_height);
    (to_top + to_window - direct).max(0)
}

pub fn in_shadow(segment: &Segment) -> bool {
    segment.screen_top as i64 * segment.distance as i64 >= segment.window_height as i64 * segment.screen_distance as i64
}

/// The screen correction with no far wall; lengths are in ten-millionths of a metre.
pub fn screen_alone(segment: &Segment) -> i64 {
    let difference = path_difference(segment);
    if in_shadow(segment) {
        return multiple_of_log(-7_750_000, (52_000_000 + 203 * difference) as u64, 10_000_000).whole;
    }
    if difference > ILLUMINATED_LIMIT {
        return 0;
    }
    880_000 + multiple_of_log(2_140_000, (difference + 10_000) as u64, 10_000_000).whole
}

/// What the far wall takes off the screen correction: 0.5 dB for each metre of it, to the nearest metre
/// with halves up; nothing below 15 decimetres, though 10 to 14 round to a metre.
pub fn wall_loss(wall: i32) -> i64 {
    if wall < 15 {
        return 0;
    }
    500_000 * ((wall as i64 + 5) / 10)
}

/// The screen step without the Chart 6(c) reading: the correction, brought up by the far wall's loss. The
/// cap at zero comes with a loss alone: without one, a correction a little above zero stays. Loss and cap
/// are whole microdecibels, so both pass through the fence.
pub fn screen(segment: &Segment) -> i64 {
    let correction = screen_alone(segment);
    match wall_loss(segment.wall) {
        0 => correction,
        loss => (correction + loss).min(0),
    }
}

/// The nearest billionth of the first ten terms of the sine's power series, 0 to 90 degrees.
fn sine_of_series(degrees: u32) -> i64 {
    let angle = Big::from(degrees as u128 * PI_BILLIONTHS as u128);
    let unit = Big::from(180 * BILLION as u128);
    // All ten terms over unit^19·19!.
    let mut sums = [Big::from(0), Big::from(0)];
    for k in 0..10u32 {
        let factorials = (2 * k as u128 + 2..=19).product::<u128>();
        let term = angle.power(2 * k + 1).multiply(&unit.power(18 - 2 * k)).multiply(&Big::from(factorials));
        let sign = (k % 2) as usize;
        sums[sign] = sums[sign].plus(&term);
    }
    let numerator = sums[0].subtract(&sums[1]).multiply(&Big::from(2 * BILLION as u128));
    let denominator = unit.power(19).multiply(&Big::from((1..=19).product::<u128>()));
    // The nearest r: 2r - 1 halves are reached, 2r + 1 are not.
    let reaches = |halves: i64| halves <= 0 || numerator.at_least(&denominator.multiply(&Big::from(halves as u128)));
    let mut nearest = ((degrees as f64).to_radians().sin() * 1e9) as i64;
    while !reaches(2 * nearest - 1) {
        nearest -= 1;
    }
    while reaches(2 * nearest + 1) {
        nearest += 1;
    }
    nearest
}

fn sine_table() -> &'static Vec<i64> {
    static TABLE: OnceLock<Vec<i64>> = OnceLock::new();
    TABLE.get_or_init(|| (0..=90).map(sine_of_series).collect())
}

/// Billionths, for 0 to 180 degrees.
fn sine(degrees: i32) -> i64 {
    let reflected = if degrees > 90 { 180 - degrees } else { degrees };
    sine_table()[reflected as usize]
}

/// Billionths, for 0 to 180 degrees.
fn cosine(degrees: i32) -> i64 {
    if degrees <= 90 {
        sine(90 - degrees)
    } else {
        -sine(degrees - 90)
    }
}

/// y of the angle step in billionths, from the angle of view and a.
pub fn angle_argument(view_angle: i32, double_angle: i32) -> i64 {
    let arc = PI_BILLIONTHS * view_angle as i64 / 180;
    // Rust's division cuts toward zero, as 01 asks.
    arc - sine(view_angle) * cosine(double_angle) / BILLION
}

/// 10·log y - 5.
pub fn angle(view_angle: i32, double_angle: i32) -> i64 {
    let y = angle_argument(view_angle, double_angle);
    multiple_of_log(10_000_000, y as u64, BILLION as u64).whole - 5_000_000
}

/// 1.5·θ'/θ.
pub fn opposite(opposite_angle: i32, view_angle: i32) -> i64 {
    1_500_000 * opposite_angle as i64 / view_angle as i64
}

#[cfg(test)]
mod tests {
    use super::*;

    const PLAIN: Segment = Segment {
        distance: 2500,
        window_height: 0,
        mean_height: 100,
        soft_ground: 10,
        view_angle: 180,
        double_angle: 180,
        screen: 0,
        screen_distance: 0,
        screen_top: 0,
        reflection_reading: 0,
        track_reading: 0,
        ballast_reading: 0,
        facade: 0,
        opposite_angle: 0,
        wall: 0,
    };

    fn at(distance: i32) -> Segment {
        Segment { distance, ..PLAIN }
    }

    #[test]
    fn readings_of_01() {
        for (v, tenths) in [(1, 572), (19, 572), (20, 572), (21, 576), (100, 712), (150, 747), (300, 807)] {
            assert_eq!(nearest_tenth(speed(v)), tenths);
        }
        for (n, tenths) in [(1, 0), (2, 30), (10, 100), (60, 178)] {
            assert_eq!(nearest_tenth(vehicles(n)), tenths);
        }
        for (d, far, aired) in [(1000, 40, 1), (2500, 0, 0), (30000, -108, -22)] {
            assert_eq!(nearest_tenth(distance(&at(d))), far);
            assert_eq!(nearest_tenth(air(&at(d))), aired);
        }
        assert_eq!(nearest_tenth(air(&at(1875))), 1);
        assert_eq!(nearest_tenth(air(&at(1876))), 0);
        for (q, tenths) in [(13, 111), (179, 225)] {
            assert_eq!(nearest_tenth(trains(q)), tenths);
        }
        for (view, double, tenths) in [(180, 180, 0), (29, 29, -159), (115, 173, -4), (12, 12, -272), (5, 5, -385)] {
            assert_eq!(nearest_tenth(angle(view, double)), tenths);
        }
        assert_eq!(nearest_tenth(opposite(1, 30)), 1);
        assert_eq!(nearest_tenth(opposite(1, 31)), 0);
    }

    #[test]
    fn ground_readings_of_01() {
        for (height, tenths) in [(235, -13), (100, -18), (600, 0)] {
            let segment = Segment { mean_height: height, ..at(10000) };
            assert_eq!(nearest_tenth(ground(&segment).whole), tenths);
        }
        let tie = Segment { mean_height: 350, soft_ground: 5, ..at(25000) };
        assert_eq!(ground(&tie), Floor { whole: -750_000, exact: true });
        assert_eq!(nearest_tenth(-750_000), -7);
    }

    #[test]
    fn every_angle_pair_has_an_argument() {
        let least = (5..=180).flat_map(|v| (v..=180).map(move |a| angle_argument(v, a))).min();
        assert_eq!(least, Some(442_373));
        assert_eq!((5..=180).map(|v| 181 - v).sum::<i32>(), 15_576);
    }

    #[test]
    fn path_differences_that_come_out_whole() {
        let limit = Segment { screen: 1, screen_distance: 500, screen_top: 375, ..at(1000) };
        assert_eq!(path_difference(&limit), SHADOW_LIMIT);
        assert!(in_shadow(&limit));
        let lit = Segment { screen: 1, screen_distance: 630, screen_top: -160, ..at(1260) };
        assert_eq!(path_difference(&lit), ILLUMINATED_LIMIT);
        assert!(!in_shadow(&lit));
        let edge = Segment { screen: 1, screen_distance: 1000, ..at(2500) };
        assert_eq!((path_difference(&edge), nearest_tenth(screen(&edge))), (0, -55));
    }

    #[test]
    fn a_wall_counts_by_whole_metres_from_15_decimetres() {
        for (wall, metres) in [(0, 0), (10, 0), (14, 0), (15, 2), (24, 2), (25, 3), (94, 9), (95, 10), (100, 10)] {
            assert_eq!(wall_loss(wall), 500_000 * metres, "{wall}");
        }
    }

    #[test]
    fn the_cap_at_zero_comes_with_a_loss_alone() {
        // 0.4 m exactly, in the light: 0.88 + 2.14 log 0.401 is above zero.
        let lit = Segment { screen: 1, screen_distance: 630, screen_top: -160, ..at(1260) };
        let above = screen(&lit);
        assert!(above > 0);
        for wall in [1, 10, 14] {
            assert_eq!(screen(&Segment { wall, ..lit }), above, "{wall}");
        }
        for wall in [15, 24, 100] {
            assert_eq!(screen(&Segment { wall, ..lit }), 0, "{wall}");
        }
        // In shadow no wall reaches the cap: the least correction is -5.55 dB and the most loss 5.
        let edge = Segment { screen: 1, screen_distance: 1000, wall: 100, ..at(2500) };
        assert_eq!(screen(&edge), screen_alone(&edge) + 5_000_000);
        assert!(screen(&edge) < 0);
    }
}
