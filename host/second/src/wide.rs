//! Fixed-point numbers of 512 bits, 448 of them after the point.
//! Used once, at the start, to make the tables of `logarithm` and `energy`.
//! Every operation cuts down, so a result is never above the true value of its operands' result.

use std::cmp::Ordering;

pub const LIMBS: usize = 8;
pub const FRACTION_LIMBS: usize = 7;

/// Lowest limb first; the last limb is the whole part.
#[derive(Clone, Copy, PartialEq, Eq, Debug)]
pub struct Wide(pub [u64; LIMBS]);

/// The full product of two little-endian numbers; `product` holds as many limbs as both together.
pub fn multiply_limbs(left: &[u64], right: &[u64], product: &mut [u64]) {
    product.fill(0);
    for (i, &a) in left.iter().enumerate() {
        let mut carry = 0u128;
        for (j, &b) in right.iter().enumerate() {
            let sum = a as u128 * b as u128 + product[i + j] as u128 + carry;
            product[i + j] = sum as u64;
            carry = sum >> 64;
        }
        product[i + right.len()] = carry as u64;
    }
}

impl Wide {
    pub fn whole(number: u64) -> Wide {
        let mut limbs = [0; LIMBS];
        limbs[FRACTION_LIMBS] = number;
        Wide(limbs)
    }

    pub fn is_zero(self) -> bool {
        self.0.iter().all(|&limb| limb == 0)
    }

    pub fn plus(self, other: Wide) -> Wide {
        let mut limbs = [0; LIMBS];
        let mut carry = 0u128;
        for (i, limb) in limbs.iter_mut().enumerate() {
            let sum = self.0[i] as u128 + other.0[i] as u128 + carry;
            *limb = sum as u64;
            carry = sum >> 64;
        }
        assert!(carry == 0, "wide sum too large");
        Wide(limbs)
    }

    /// `other` must not be larger.
    pub fn subtract(self, other: Wide) -> Wide {
        let mut limbs = [0; LIMBS];
        let mut borrow = false;
        for (i, limb) in limbs.iter_mut().enumerate() {
            let (first, under) = self.0[i].overflowing_sub(other.0[i]);
            let (second, under_again) = first.overflowing_sub(borrow as u64);
            *limb = second;
            borrow = under || under_again;
        }
        assert!(!borrow, "wide difference below zero");
        Wide(limbs)
    }

    pub fn multiply(self, other: Wide) -> Wide {
        let mut product = [0; 2 * LIMBS];
        multiply_limbs(&self.0, &other.0, &mut product);
        let mut limbs = [0; LIMBS];
        limbs.copy_from_slice(&product[FRACTION_LIMBS..FRACTION_LIMBS + LIMBS]);
        assert!(product[FRACTION_LIMBS + LIMBS] == 0, "wide product too large");
        Wide(limbs)
    }

    pub fn multiply_small(self, factor: u64) -> Wide {
        let mut product = [0; LIMBS + 1];
        multiply_limbs(&self.0, &[factor], &mut product);
        assert!(product[LIMBS] == 0, "wide product too large");
        let mut limbs = [0; LIMBS];
        limbs.copy_from_slice(&product[..LIMBS]);
        Wide(limbs)
    }

    pub fn divide_small(self, divisor: u64) -> Wide {
        let mut limbs = [0; LIMBS];
        let mut remainder = 0u128;
        for i in (0..LIMBS).rev() {
            let part = remainder << 64 | self.0[i] as u128;
            limbs[i] = (part / divisor as u128) as u64;
            remainder = part % divisor as u128;
        }
        Wide(limbs)
    }

    /// One over a number above one, by long division, bit by bit.
    pub fn reciprocal(self) -> Wide {
        let fraction_bits = 64 * FRACTION_LIMBS;
        let mut limbs = [0; LIMBS];
        let mut remainder = Wide([0; LIMBS]);
        for bit in (0..=2 * fraction_bits).rev() {
            remainder = remainder.plus(remainder);
            if bit == 2 * fraction_bits {
                remainder.0[0] |= 1;
            }
            if remainder.compare(self) != Ordering::Less {
                remainder = remainder.subtract(self);
                limbs[bit / 64] |= 1 << (bit % 64);
            }
        }
        Wide(limbs)
    }

    pub fn compare(self, other: Wide) -> Ordering {
        self.0.iter().rev().cmp(other.0.iter().rev())
    }

    /// The number times 2^96, cut down.
    pub fn to_fixed_96(self) -> u128 {
        assert!(self.0[7] < 1 << 30);
        (self.0[7] as u128) << 96 | (self.0[6] as u128) << 32 | (self.0[5] as u128) >> 32
    }
}

/// The inverse hyperbolic tangent of 1/n, n at least 3: the sum of 1/(k·n^k) over odd k.
fn inverse_tangent(n: u64) -> Wide {
    let mut power = Wide::whole(1).divide_small(n);
    let mut sum = Wide::whole(0);
    let mut k = 1;
    while !power.is_zero() {
        sum = sum.plus(power.divide_small(k));
        power = power.divide_small(n * n);
        k += 2;
    }
    sum
}

/// The natural logarithms of 0 (unused, as zero) to `last`:
/// ln(n + 1) is ln n plus twice the inverse hyperbolic tangent of 1/(2n + 1).
pub fn natural_logarithms(last: u64) -> Vec<Wide> {
    let mut list = vec![Wide::whole(0), Wide::whole(0)];
    for n in 1..last {
        let step = inverse_tangent(2 * n + 1).multiply_small(2);
        list.push(list[n as usize].plus(step));
    }
    list
}

#[cfg(test)]
mod tests {
    use super::*;

    #[test]
    fn reciprocal_of_ten_and_three() {
        let third = Wide::whole(3).reciprocal();
        assert_eq!(third, Wide::whole(1).divide_small(3));
        let tenth = Wide::whole(10).reciprocal();
        assert_eq!(tenth, Wide::whole(1).divide_small(10));
    }

    #[test]
    fn logarithm_of_a_product_is_the_sum() {
        let list = natural_logarithms(100);
        for (a, b) in [(2, 5), (3, 7), (9, 11), (10, 10)] {
            let sum = list[a].plus(list[b]);
            let direct = list[a * b];
            let (low, high) = if sum.compare(direct) == Ordering::Less { (sum, direct) } else { (direct, sum) };
            let gap = high.subtract(low);
            // Only the lowest limb, and of it only the low half, may differ.
            assert!(gap.0[0] < 1 << 32 && gap.0[1..].iter().all(|&limb| limb == 0));
        }
    }
}
