//! The energy of a fence (01's terms): the largest whole n with n^10,000,000 at most 10^(m + 300,000,000),
//! which is 10^(30 + m/10,000,000) cut down, m in microdecibels.
//!
//! Precision. Table entries have 240 bits after the point and lie below the true value by less than
//! 2^-239; a product of two of them (below 10) by less than 2^-234; times at most 10^45 < 2^150 by less
//! than 2^-84. Where the next whole number is within 2^-80, this program stops: it never guesses. Only
//! a whole power of ten is rational, and there the tables hold exactly 1.

use std::sync::OnceLock;

use crate::wide::{multiply_limbs, natural_logarithms, Wide};

/// A whole number of 256 bits, highest limb first, so that the derived order is the numbers' order.
#[derive(Clone, Copy, PartialEq, Eq, PartialOrd, Ord, Debug)]
pub struct Energy([u64; 4]);

impl Energy {
    pub const ZERO: Energy = Energy([0; 4]);

    pub fn plus(self, other: Energy) -> Energy {
        let mut limbs = [0; 4];
        let mut carry = 0u128;
        for i in (0..4).rev() {
            let sum = self.0[i] as u128 + other.0[i] as u128 + carry;
            limbs[i] = sum as u64;
            carry = sum >> 64;
        }
        assert!(carry == 0, "energy too large");
        Energy(limbs)
    }

    /// Near enough for a first guess; nothing is decided by it.
    pub fn about(self) -> f64 {
        self.0.iter().fold(0.0, |value, &limb| value * 18_446_744_073_709_551_616.0 + limb as f64)
    }

    pub fn is_odd(self) -> bool {
        self.0[3] & 1 == 1
    }
}

/// Four limbs, lowest first: a number from 1 up to 10 with 240 bits after the point.
type Entry = [u64; 4];
const FINE: usize = 10_000;
const COARSE: usize = 1_000;
const POWERS: usize = 46;

struct Tables {
    /// 10^(i/10,000,000).
    fine: Vec<Entry>,
    /// 10^(i/1,000).
    coarse: Vec<Entry>,
    /// 10^i as three limbs.
    power: Vec<[u64; 3]>,
}

/// Limbs of a number after 240 bits have been taken off its low end.
fn without_fraction<const N: usize>(limbs: &[u64]) -> [u64; N] {
    let mut out = [0; N];
    for (i, limb) in out.iter_mut().enumerate() {
        let high = limbs.get(i + 4).copied().unwrap_or(0);
        *limb = limbs[i + 3] >> 48 | high << 16;
    }
    out
}

/// A wide number with 240 bits after the point instead of 448.
fn entry(number: Wide) -> Entry {
    let mut out = [0; 4];
    for (i, limb) in out.iter_mut().enumerate() {
        let high = number.0.get(i + 4).copied().unwrap_or(0);
        *limb = number.0[i + 3] >> 16 | high << 48;
    }
    out
}

/// e^x for a small x, by its power series.
fn exponential(x: Wide) -> Wide {
    let mut term = Wide::whole(1);
    let mut sum = Wide::whole(1);
    let mut k = 1;
    loop {
        term = term.multiply(x).divide_small(k);
        if term.is_zero() {
            return sum;
        }
        sum = sum.plus(term);
        k += 1;
    }
}

/// The powers 0 to `count` - 1 of a ratio, and the next one.
fn powers_of(ratio: Wide, count: usize) -> (Vec<Entry>, Wide) {
    let mut list = Vec::with_capacity(count);
    let mut number = Wide::whole(1);
    for _ in 0..count {
        list.push(entry(number));
        number = number.multiply(ratio);
    }
    (list, number)
}

fn tables() -> &'static Tables {
    static TABLES: OnceLock<Tables> = OnceLock::new();
    TABLES.get_or_init(|| {
        let log_of_ten = natural_logarithms(10)[10];
        let (fine, thousandth) = powers_of(exponential(log_of_ten.divide_small(10_000_000)), FINE);
        let (coarse, _) = powers_of(thousandth, COARSE);
        let mut power = vec![[1, 0, 0]];
        for i in 1..POWERS {
            let mut next = [0; 4];
            multiply_limbs(&power[i - 1], &[10], &mut next);
            power.push([next[0], next[1], next[2]]);
        }
        Tables { fine, coarse, power }
    })
}

/// The energy of m microdecibels.
pub fn energy(m: i64) -> Energy {
    let shifted = m + 300_000_000;
    if shifted < 0 {
        return Energy::ZERO;
    }
    let tables = tables();
    let exponent = (shifted / 10_000_000) as usize;
    let rest = (shifted % 10_000_000) as usize;
    assert!(exponent < POWERS, "level out of range");
    let mut product = [0; 8];
    multiply_limbs(&tables.coarse[rest / FINE], &tables.fine[rest % FINE], &mut product);
    let ratio: Entry = without_fraction(&product);
    let mut scaled = [0; 7];
    multiply_limbs(&ratio, &tables.power[exponent], &mut scaled);
    // The first 48 bits after the point are the low bits of limb 3, the next 64 are limb 2.
    let fraction = (scaled[3] as u128 & 0xffff_ffff_ffff) << 64 | scaled[2] as u128;
    assert!(fraction < (1 << 112) - (1 << 32), "undecided: energy of {m}");
    let whole: [u64; 4] = without_fraction(&scaled);
    Energy([whole[3], whole[2], whole[1], whole[0]])
}

/// The largest m whose energy does not exceed the sum; the sum must reach the energy of -200 dB.
pub fn level_of(sum: Energy) -> i64 {
    let mut m = (1e7 * (sum.about().log10() - 30.0)).floor() as i64;
    while energy(m) > sum {
        m -= 1;
    }
    while energy(m + 1) <= sum {
        m += 1;
    }
    m
}

#[cfg(test)]
mod tests {
    use super::{energy, level_of, Energy};
    use crate::big::Big;

    fn big(e: Energy) -> Big {
        let word = Big::from(1u128 << 64);
        e.0.iter().fold(Big::from(0), |value, &limb| value.multiply(&word).plus(&Big::from(limb as u128)))
    }

    #[test]
    fn whole_powers_of_ten() {
        assert_eq!(big(energy(0)), Big::from(10).power(30));
        assert_eq!(big(energy(100_000_000)), Big::from(10).power(40));
        assert_eq!(big(energy(-100_000_000)), Big::from(10).power(20));
        assert_eq!(big(energy(-300_000_000)), Big::from(1));
        assert_eq!(energy(-300_000_001), Energy::ZERO);
    }

    #[test]
    fn tenths_and_millidecibels_by_their_powers() {
        // n^p at most 10^e and (n + 1)^p above it; 10,000,000/p microdecibels go to one unit of e.
        for (p, step) in [(100u32, 100_000i64), (200, 50_000), (1000, 10_000)] {
            for m in [-574 * 100_000, -100_000, 50_000, 675 * 100_000 - 50_000, 670_000, 1_290 * 100_000] {
                if m % step != 0 {
                    continue;
                }
                let bound = Big::from(10).power(((m + 300_000_000) / step) as u32);
                let n = big(energy(m));
                assert!(bound.at_least(&n.power(p)));
                assert!(!bound.at_least(&n.plus(&Big::from(1)).power(p)), "{m}");
            }
        }
    }

    #[test]
    fn level_is_the_last_one_reached() {
        for m in [-57_412_345, 0, 1, 67_449_999, 129_000_001] {
            let here = energy(m);
            assert_eq!(level_of(here), m);
            assert_eq!(level_of(here.plus(Energy([0, 0, 0, 1]))), m);
        }
    }
}
