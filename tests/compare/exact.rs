//! The left side of the density test as an exact fraction, over the product of all deadlines, and where it lies.

use crate::lent::{row_at, row_count};
use crate::natural::Natural;
use second::call::Call;
use second::rows::{Row, Sheet};
use std::cmp::Ordering;

/// Billionths in a whole.
const BILLION: u64 = 1_000_000_000;

/// A fraction that is not shortened.
pub struct Fraction {
    over: Natural,
    under: Natural,
}

impl Fraction {
    /// Nothing.
    fn zero() -> Fraction {
        Fraction {
            over: Natural::zero(),
            under: Natural::one(),
        }
    }

    /// The fraction and a second one, over the product of what both are over.
    fn plus(&self, over: u64, under: u64) -> Fraction {
        let other = self.under.times(over);
        Fraction {
            over: self.over.times(under).plus(&other),
            under: self.under.times(under),
        }
    }

    /// Whether the fraction is less than so many billionths, as much, or more.
    pub fn against(&self, billionths: u64) -> Ordering {
        let left = self.over.times(BILLION);
        left.cmp(&self.under.times(billionths))
    }

    /// The fraction in whole billionths, rounded down and rounded up.
    pub fn billionths(&self) -> (u64, u64) {
        let bits = (0..40).rev();
        let down = bits.fold(0, |found, bit| {
            let tried = found | 1 << bit;
            if self.against(tried).is_lt() {
                found
            } else {
                tried
            }
        });
        (down, down + u64::from(self.against(down).is_gt()))
    }
}

/// The density test of a call: the densities as cost and deadline, and the processors.
pub struct Test {
    densities: Vec<(u64, u64)>,
    processors: u64,
}

/// The test that a call asks for. Where a wrong program answers what it has to refuse, a deadline of 0 counts as 1.
pub fn test_of(call: &Call) -> Test {
    let density = |place: usize| {
        let [cost, deadline, _] = row_at(call, place);
        (u64::from(cost), u64::from(deadline.max(1)))
    };
    Test {
        densities: (0..row_count(call)).map(density).collect(),
        processors: u64::from(call.processors),
    }
}

/// The test that a sheet asks for.
pub fn test_of_sheet(sheet: &Sheet) -> Test {
    let density = |row: &Row| (row.cost, row.deadline);
    Test {
        densities: sheet.rows.iter().map(density).collect(),
        processors: sheet.processors,
    }
}

impl Test {
    /// The processors but one.
    fn more(&self) -> u64 {
        self.processors.saturating_sub(1)
    }

    /// The largest density.
    fn largest(&self) -> (u64, u64) {
        let larger = |one: (u64, u64), other: &(u64, u64)| {
            if one.0 * other.1 < other.0 * one.1 {
                *other
            } else {
                one
            }
        };
        self.densities.iter().fold((0, 1), larger)
    }

    /// The sum of all densities.
    pub fn total(&self) -> Fraction {
        let add = |sum: Fraction, &(cost, deadline): &(u64, u64)| sum.plus(cost, deadline);
        self.densities.iter().fold(Fraction::zero(), add)
    }

    /// The left side: the sum of all densities and m - 1 times the largest.
    pub fn left_side(&self) -> Fraction {
        let (cost, deadline) = self.largest();
        self.total().plus(self.more() * cost, deadline)
    }

    /// The right side in billionths.
    pub fn limit(&self) -> u64 {
        self.processors * BILLION
    }

    /// The distance that unsure stays below: a billionth for each row, and for each processor but one.
    pub fn distance(&self) -> u64 {
        self.densities.len() as u64 + self.more()
    }

    /// How far rounding can reach at the most: as the distance, but without densities that are whole billionths.
    pub fn reach(&self) -> u64 {
        let is_broken = |&(cost, deadline): &(u64, u64)| cost * BILLION % deadline > 0;
        let broken = self.densities.iter().filter(|density| is_broken(density));
        broken.count() as u64 + u64::from(is_broken(&self.largest())) * self.more()
    }

    /// Whether a left side is less than so many billionths away from the limit.
    pub fn is_within(&self, left: &Fraction, distance: u64) -> bool {
        let below = self.limit().saturating_sub(distance);
        left.against(below).is_gt() && left.against(self.limit() + distance).is_lt()
    }
}
