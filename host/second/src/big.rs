//! Whole numbers of any size, for the sine fraction and for powers held against powers of ten.

use std::cmp::Ordering;

use crate::wide::multiply_limbs;

/// Lowest limb first, no zero limb at the end.
#[derive(Clone, PartialEq, Eq, Debug)]
pub struct Big(Vec<u64>);

impl Big {
    pub fn from(number: u128) -> Big {
        Big(vec![number as u64, (number >> 64) as u64]).trimmed()
    }

    fn trimmed(mut self) -> Big {
        while self.0.last() == Some(&0) {
            self.0.pop();
        }
        self
    }

    pub fn plus(&self, other: &Big) -> Big {
        let mut limbs = Vec::new();
        let mut carry = 0u128;
        for i in 0..self.0.len().max(other.0.len()) + 1 {
            let here = |limbs: &Vec<u64>| limbs.get(i).copied().unwrap_or(0) as u128;
            let sum = here(&self.0) + here(&other.0) + carry;
            limbs.push(sum as u64);
            carry = sum >> 64;
        }
        Big(limbs).trimmed()
    }

    /// `other` must not be larger.
    pub fn subtract(&self, other: &Big) -> Big {
        let mut limbs = self.0.clone();
        let mut borrow = false;
        for (i, limb) in limbs.iter_mut().enumerate() {
            let taken = other.0.get(i).copied().unwrap_or(0);
            let (first, under) = limb.overflowing_sub(taken);
            let (second, under_again) = first.overflowing_sub(borrow as u64);
            *limb = second;
            borrow = under || under_again;
        }
        assert!(!borrow && other.0.len() <= self.0.len(), "difference below zero");
        Big(limbs).trimmed()
    }

    pub fn multiply(&self, other: &Big) -> Big {
        let mut product = vec![0; self.0.len() + other.0.len()];
        multiply_limbs(&self.0, &other.0, &mut product);
        Big(product).trimmed()
    }

    pub fn power(&self, exponent: u32) -> Big {
        let mut result = Big::from(1);
        let mut square = self.clone();
        let mut rest = exponent;
        while rest > 0 {
            if rest & 1 == 1 {
                result = result.multiply(&square);
            }
            square = square.multiply(&square);
            rest >>= 1;
        }
        result
    }

    pub fn compare(&self, other: &Big) -> Ordering {
        let lengths = self.0.len().cmp(&other.0.len());
        lengths.then_with(|| self.0.iter().rev().cmp(other.0.iter().rev()))
    }

    pub fn at_least(&self, other: &Big) -> bool {
        self.compare(other) != Ordering::Less
    }
}

#[cfg(test)]
mod tests {
    use super::*;

    #[test]
    fn powers_and_differences() {
        let ten = Big::from(10);
        assert_eq!(ten.power(30), Big::from(10u128.pow(30)));
        assert_eq!(ten.power(60), ten.power(30).multiply(&ten.power(30)));
        let less = ten.power(60).subtract(&Big::from(1));
        assert!(!less.at_least(&ten.power(60)));
        assert_eq!(less.plus(&Big::from(1)), ten.power(60));
    }
}
