//! Figures one past an end of their range, or far from it.

use crate::generate::{EntryNumbers, Random, SegmentNumbers};

const FAR: [i32; 6] = [99_999, -99_999, 32_768, -32_769, 65_536, -1];

/// One number just outside a range, or one far away.
fn past(random: &mut Random, low: i32, high: i32) -> i32 {
    match random.below(5) {
        0 | 1 => low - 1,
        2 | 3 => high + 1,
        _ => {
            let far = random.pick(&FAR);
            if (low..=high).contains(&far) {
                high + 1
            } else {
                far
            }
        }
    }
}

pub fn spoil_segment(random: &mut Random, n: &mut SegmentNumbers) {
    let screened = n[6] != 0;
    match random.below(20) {
        0 => n[0] = past(random, 1000, 30000),
        1 => n[1] = past(random, -5000, 5000),
        2 => n[2] = past(random, 0, 5000),
        3 => n[3] = past(random, 0, 10),
        4 => n[4] = past(random, 5, 180),
        5 => n[5] = past(random, n[4], 180),
        6 => n[6] = past(random, 0, 2),
        7 if screened => n[7] = past(random, 100, n[0] - 100),
        7 | 8 if !screened => n[7] = random.pick(&[1, -1, 100, 500]),
        8 => n[8] = past(random, -2000, 5000),
        9 if screened => n[9] = if n[6] == 2 { past(random, 0, 100) } else { random.pick(&[1, -1, 50]) },
        9 => n[8] = random.pick(&[1, -1, 300]),
        10 => n[10] = past(random, 0, 150),
        11 => n[11] = if screened { random.pick(&[-1, 1, -30, -31]) } else { past(random, -30, 0) },
        12 => n[12] = past(random, 0, 1),
        13 => n[13] = past(random, 0, n[4]),
        14 => n[9] = random.pick(&[1, -1, 101]),
        // The far wall, at times with a later fault beside it.
        15 | 16 => {
            n[14] = if screened { past(random, 0, 100) } else { random.pick(&[1, -1, 14, 15, 100]) };
            if random.chance(30) {
                n[10] = past(random, 0, 150);
            }
        }
        // A screen far above the line of sight: over 2.5 m in shadow; at times with a later fault beside it,
        // or an earlier one.
        17 | 18 => {
            n[6] = 1;
            n[7] = random.between(100, (n[0] - 100).max(101));
            n[8] = random.between(3000, 5000);
            (n[9], n[11]) = (0, 0);
            match random.below(5) {
                0 | 1 => n[10] = past(random, 0, 150),
                2 => n[14] = past(random, 0, 100),
                _ => {}
            }
        }
        _ => n[6] = if screened { 0 } else { random.between(1, 2) },
    }
}

pub fn spoil_entry(random: &mut Random, n: &mut EntryNumbers) {
    match random.below(6) {
        0 => n[0] = past(random, 1, 34),
        1 => n[1] = past(random, 1, 300),
        2 => n[2] = past(random, 1, 60),
        3 => n[3] = past(random, 0, 2000),
        4 => n[4] = past(random, 0, 2000),
        _ => {
            spoil_entry(random, n);
            spoil_entry(random, n);
        }
    }
}
