//! Slips in the test for one processor.

use super::Slip;
use second::one_processor::{verdict, Verdict};
use second::program::{Program, DOCUMENT};
use second::rows::Row;

/// The slips: what a wrong program does, and the part that is exchanged.
pub const SLIPS: [Slip; 7] = [
    ("divides a negative t - D toward zero", |program| {
        program.demand = toward_zero
    }),
    ("says fits because the horizon was clean", |program| {
        program.verdict = clean_horizon
    }),
    ("takes demand equal to the length as a miss", |program| {
        program.misses = |demand, length| demand >= length
    }),
    ("has no demand at the deadline itself", |program| {
        program.demand = none_when_due
    }),
    ("has one job at D + T still", |program| {
        program.demand = |row, length| once_until(row, length, row.deadline + row.period)
    }),
    ("has one job below D + 2T", |program| {
        program.demand = |row, length| once_until(row, length, row.deadline + 2 * row.period - 1)
    }),
    ("counts a job too many in a busy length", |program| {
        program.jobs_begun = |row, length| length / row.period + 1
    }),
];

/// Demand with t - D divided toward zero.
fn toward_zero(row: Row, length: u64) -> u64 {
    let after = length as i64 - row.deadline as i64;
    ((after / row.period as i64 + 1) * row.cost as i64) as u64
}

/// Fits where no length up to the horizon misses.
pub fn clean_horizon(program: &Program, rows: &[Row], horizon: u64) -> Verdict {
    match verdict(program, rows, horizon) {
        Verdict::Undecided => Verdict::Fits(horizon),
        decided => decided,
    }
}

/// Demand that begins after the deadline.
fn none_when_due(row: Row, length: u64) -> u64 {
    if length <= row.deadline {
        0
    } else {
        (DOCUMENT.demand)(row, length)
    }
}

/// Demand of one job from the deadline on, until a length.
fn once_until(row: Row, length: u64, last: u64) -> u64 {
    if row.deadline <= length && length <= last {
        row.cost
    } else {
        (DOCUMENT.demand)(row, length)
    }
}
