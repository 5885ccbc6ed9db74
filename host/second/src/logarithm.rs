//! Base ten logarithms and the whole part of a multiple of one, decided exactly.
//!
//! Precision. `log_fixed` gives log n in units u = 2^-96, below the true value by less than 16 u:
//! the two table entries by at most 2 u together; the series by less than 14 u (five terms, each
//! cut a few times, then doubled; its tail is below 2^-112), of which the factor 1/ln 10 leaves 7 u.
//! A multiple by at most 2^25 of a difference of two logarithms is thus known to 2^-67. Where a
//! whole number lies within 2^-66 of it, the ratio is either a power of ten, where the value is a
//! whole number and known, or the value is irrational and this program stops: it never guesses.
//! (10^(p/q) is rational only when p/q is whole, so no other ratio can meet a whole number.)

use std::sync::OnceLock;

use crate::wide::natural_logarithms;

const FRACTION_BITS: u32 = 96;
/// Numbers below this have their own entry; longer ones use their first ten bits.
const PREFIXES: u64 = 1024;
const LONGEST: u32 = 40;

struct Tables {
    /// log t in units of 2^-96, for t from 1 to 1023.
    prefix: Vec<u128>,
    /// s·log 2, for s from 0 to 30.
    doubling: Vec<u128>,
    /// 1/ln 10.
    per_natural: u128,
}

fn tables() -> &'static Tables {
    static TABLES: OnceLock<Tables> = OnceLock::new();
    TABLES.get_or_init(|| {
        let natural = natural_logarithms(PREFIXES);
        let per_natural = natural[10].reciprocal();
        let log_two = natural[2].multiply(per_natural);
        Tables {
            prefix: natural[..PREFIXES as usize].iter().map(|n| n.multiply(per_natural).to_fixed_96()).collect(),
            doubling: (0..=30).map(|s| log_two.multiply_small(s).to_fixed_96()).collect(),
            per_natural: per_natural.to_fixed_96(),
        }
    })
}

/// The product of two fixed-point numbers below 2^4, cut down.
fn multiply_fixed(a: u128, b: u128) -> u128 {
    let low = |x: u128| x as u64 as u128;
    let (a1, a0, b1, b0) = (a >> 64, low(a), b >> 64, low(b));
    let middle = a1 * b0 + a0 * b1 + ((a0 * b0) >> 64);
    ((a1 * b1) << 32) + (middle >> 32)
}

/// log n in units of 2^-96, at most the true value and less than 16 units below it.
fn log_fixed(n: u64) -> u128 {
    assert!((1..1 << LONGEST).contains(&n), "logarithm out of range");
    let tables = tables();
    if n < PREFIXES {
        return tables.prefix[n as usize];
    }
    let shift = 64 - n.leading_zeros() - 10;
    let prefix = n >> shift;
    let start = prefix << shift;
    // ln(n/start) is twice the inverse hyperbolic tangent of z; z is below 2^-10.
    let z = ((n - start) as u128) << FRACTION_BITS;
    let z = z / (n + start) as u128;
    let square = multiply_fixed(z, z);
    let mut power = z;
    let mut sum = z;
    for k in [3, 5, 7, 9] {
        power = multiply_fixed(power, square);
        sum += power / k;
    }
    let rest = multiply_fixed(2 * sum, tables.per_natural);
    tables.prefix[prefix as usize] + tables.doubling[shift as usize] + rest
}

/// A value by the largest whole number not above it; `exact` when it is that number.
#[derive(Clone, Copy, PartialEq, Eq, Debug)]
pub struct Floor {
    pub whole: i64,
    pub exact: bool,
}

impl Floor {
    /// The least whole number not below the value.
    pub fn ceiling(self) -> i64 {
        self.whole + !self.exact as i64
    }
}

/// The exponent when over/under is a power of ten.
fn power_of_ten(over: u64, under: u64) -> Option<i64> {
    (-12..=12i64).find(|&e| {
        let scale = 10u128.pow(e.unsigned_abs() as u32);
        let (left, right) = (over as u128, under as u128);
        if e < 0 {
            left * scale == right
        } else {
            left == right * scale
        }
    })
}

/// factor·log(over/under), decided exactly.
pub fn multiple_of_log(factor: i64, over: u64, under: u64) -> Floor {
    assert!(factor.unsigned_abs() <= 1 << 25, "factor out of range");
    if let Some(exponent) = power_of_ten(over, under) {
        return Floor { whole: factor * exponent, exact: true };
    }
    let difference = log_fixed(over) as i128 - log_fixed(under) as i128;
    assert!(difference.unsigned_abs() < 1 << (FRACTION_BITS + 4), "ratio out of range");
    if factor == 0 {
        return Floor { whole: 0, exact: true };
    }
    let value = difference.checked_mul(factor as i128).expect("logarithm too large");
    let error = 1i128 << 30;
    let (low, high) = ((value - error) >> FRACTION_BITS, (value + error) >> FRACTION_BITS);
    assert!(low == high, "undecided: {factor}·log({over}/{under})");
    Floor { whole: low as i64, exact: false }
}

#[cfg(test)]
mod tests {
    use super::*;
    use crate::big::Big;

    /// 100·log n is at least k - 1/2 exactly when n^200 is at least 10^(2k - 1).
    fn nearest_by_powers(n: u64, power: u32, guess: i64) -> bool {
        let reach = Big::from(n as u128).power(power);
        let ten = Big::from(10);
        let reaches = |k: i64| 2 * k - 1 <= 0 || reach.at_least(&ten.power((2 * k - 1) as u32));
        reaches(guess) && !reaches(guess + 1)
    }

    #[test]
    fn tenths_agree_with_whole_powers() {
        for n in (1..=2000).chain([4_423_733, 3_141_592_654, 2_570_796_327]) {
            let micro = multiple_of_log(10_000_000, n, 1).whole;
            let tenth = (micro + 50_000).div_euclid(100_000);
            assert!(nearest_by_powers(n, 200, tenth), "10 log {n}");
        }
        for n in 20..=300 {
            let micro = multiple_of_log(20_000_000, n, 1).whole;
            let tenth = (micro + 50_000).div_euclid(100_000);
            assert!(nearest_by_powers(n, 400, tenth), "20 log {n}");
        }
    }

    #[test]
    fn millidecibels_agree_with_whole_powers() {
        // 1000·log(over/under) is at least k exactly when over^1000 is at least under^1000·10^k.
        for (over, under) in
            [(7919, 2500), (25001, 2500), (29999, 2500), (52_000_203, 10_000_000), (925_000_000, 6_250_000)]
        {
            let found = multiple_of_log(1000, over, under).whole;
            let left = Big::from(over as u128).power(1000);
            let right = |k: i64| Big::from(under as u128).power(1000).multiply(&Big::from(10).power(k as u32));
            assert!(left.at_least(&right(found)) && !left.at_least(&right(found + 1)));
        }
    }

    #[test]
    fn exact_and_negative_values() {
        assert_eq!(multiple_of_log(-3_000_000, 25_000, 2_500), Floor { whole: -3_000_000, exact: true });
        assert_eq!(multiple_of_log(2_140_000, 10_000, 10_000_000), Floor { whole: -6_420_000, exact: true });
        let below = multiple_of_log(-10_000_000, 2, 1);
        assert_eq!((below.whole, below.ceiling()), (-3_010_300, -3_010_299));
    }
}
