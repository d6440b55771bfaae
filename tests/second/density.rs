//! The density test in billionths, as by hand: each density is divided digit by digit, and each row in turn is taken for the one
//! with the largest density. So no quotient of large numbers, no running total and no search for the largest is made.

use crate::program::Program;
use crate::rows::{Row, Sheet};

/// What the density test says.
#[derive(Clone, Copy, PartialEq, Eq, Debug)]
pub enum Density {
    Unsure,
    Yes,
    No,
}

/// A density in whole billionths: rounded down, and rounded up.
#[derive(Clone, Copy, PartialEq, Eq, Debug)]
pub struct Rounded {
    pub down: u128,
    pub up: u128,
}

/// A number divided by another to so many decimal places: what each digit leaves goes on to the next, and what the last leaves
/// rounds up. Wrong programs may let a deadline of 0 through; it counts as 1.
pub fn divided_by_hand(over: u64, under: u64, places: usize) -> Rounded {
    let (over, under) = (u128::from(over), u128::from(under.max(1)));
    let (mut down, mut left) = (over / under, over % under);
    for _ in 0..places {
        down = 10 * down + 10 * left / under;
        left = 10 * left % under;
    }
    let up = down + u128::from(left > 0);
    Rounded { down, up }
}

/// A row's density in billionths: its cost over its deadline to nine places.
pub fn rounded(row: Row) -> Rounded {
    divided_by_hand(row.cost, row.deadline, 9)
}

/// How often the density at a place counts where the row at some place is taken for the largest: once, and m - 1 times more at
/// that place itself.
pub fn weight(_rows: &[Row], place: usize, largest: usize, processors: u128) -> u128 {
    if place == largest {
        processors
    } else {
        1
    }
}

/// The left side with the row at a place taken for the largest.
pub fn left_side(program: &Program, sheet: &Sheet, densities: &[u128], largest: usize) -> u128 {
    let processors = u128::from(sheet.processors);
    let counted = |(place, density): (usize, &u128)| {
        (program.weight)(&sheet.rows, place, largest, processors) * density
    };
    densities.iter().enumerate().map(counted).sum()
}

/// The right side: a billion billionths for each processor.
pub fn limit(processors: u128) -> u128 {
    1_000_000_000 * processors
}

/// Whether a left side meets a limit.
pub fn meets(left: u128, limit: u128) -> bool {
    left <= limit
}

/// Whether a left side breaks a limit.
pub fn breaks(left: u128, limit: u128) -> bool {
    left > limit
}

/// The answer to a sheet. The left side is the highest of those with each row taken for the largest: it meets the limit where all
/// of them do, and breaks it where one of them does.
pub fn density(program: &Program, sheet: &Sheet) -> Density {
    let limit = (program.limit)(u128::from(sheet.processors));
    let rounded: Vec<Rounded> = sheet
        .rows
        .iter()
        .map(|&row| (program.rounded)(row))
        .collect();
    let ups: Vec<u128> = rounded.iter().map(|density| density.up).collect();
    let downs: Vec<u128> = rounded.iter().map(|density| density.down).collect();
    let side = |densities: &[u128], place| (program.left_side)(program, sheet, densities, place);
    let mut places = 0..sheet.rows.len();
    if places
        .clone()
        .all(|place| (program.meets)(side(&ups, place), limit))
    {
        Density::Yes
    } else if places.any(|place| (program.breaks)(side(&downs, place), limit)) {
        Density::No
    } else {
        Density::Unsure
    }
}

/// An answer's number.
pub fn density_number(answer: Density) -> u64 {
    match answer {
        Density::Unsure => 0,
        Density::Yes => 1,
        Density::No => 2,
    }
}
