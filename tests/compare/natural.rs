//! Whole numbers of any size.

use std::cmp::Ordering;

/// How many bits a digit has.
const BITS: u32 = 32;

/// A whole number by its digits in base 2^32, the lowest first; the last is not 0.
#[derive(Clone, PartialEq, Eq, Debug)]
pub struct Natural {
    digits: Vec<u32>,
}

impl Natural {
    /// One.
    pub fn one() -> Natural {
        Natural { digits: vec![1] }
    }

    /// Nothing.
    pub fn zero() -> Natural {
        Natural { digits: Vec::new() }
    }

    /// The number whose digits are the sums of some columns, of which each carries to the next.
    fn carried(columns: impl Iterator<Item = u128>) -> Natural {
        let mut digits = Vec::new();
        let mut carry = 0;
        for column in columns {
            carry += column;
            digits.push(carry as u32);
            carry >>= BITS;
        }
        while carry > 0 {
            digits.push(carry as u32);
            carry >>= BITS;
        }
        while digits.last() == Some(&0) {
            digits.pop();
        }
        Natural { digits }
    }

    /// The digit at a place, 0 behind the last.
    fn digit(&self, place: usize) -> u128 {
        self.digits.get(place).map_or(0, |&digit| u128::from(digit))
    }

    /// So many times the number.
    pub fn times(&self, factor: u64) -> Natural {
        let product = |&digit: &u32| u128::from(digit) * u128::from(factor);
        Natural::carried(self.digits.iter().map(product))
    }

    /// The sum of two numbers.
    pub fn plus(&self, other: &Natural) -> Natural {
        let places = 0..self.digits.len().max(other.digits.len());
        Natural::carried(places.map(|place| self.digit(place) + other.digit(place)))
    }
}

impl PartialOrd for Natural {
    fn partial_cmp(&self, other: &Natural) -> Option<Ordering> {
        Some(self.cmp(other))
    }
}

impl Ord for Natural {
    /// The number of more digits is the larger; else the highest digit that differs decides.
    fn cmp(&self, other: &Natural) -> Ordering {
        let lengths = self.digits.len().cmp(&other.digits.len());
        lengths.then_with(|| self.digits.iter().rev().cmp(other.digits.iter().rev()))
    }
}
