//! Slips in the one-row answer and in refining.

use super::given_up::passes;
use super::Slip;
use second::interference::{share, work};
use second::one_row::{one_row, solutions};
use second::program::{Program, DOCUMENT};
use second::refine::{first_bounds, marks, pass, turn};
use second::rows::{Row, Sheet};

/// The slips: what a wrong program does, and the part that is exchanged.
pub const SLIPS: [Slip; 17] = [
    ("leaves out rows with the asked row's numbers", |program| {
        program.is_other = other_by_value
    }),
    ("rounds the sum's part up", |program| {
        program.divided = u64::div_ceil
    }),
    ("stops after one round", |program| {
        program.refined = one_round
    }),
    ("has no W in RTA's minimum", |program| {
        program.rta_term = without_work
    }),
    ("stops after one pass at once", |program| {
        program.refined = passes::<1>
    }),
    ("stops as soon as all rows are marked", |program| {
        program.refined = until_all_marked
    }),
    ("begins with the costs", |program| {
        program.first_bounds = costs
    }),
    ("has the deadline for the bound in I", |program| {
        program.share = share_without_slack
    }),
    ("has the deadline for the bound in W", |program| {
        program.work = work_without_bound
    }),
    ("has a ceiling in W", |program| {
        program.work = work_with_ceiling
    }),
    ("caps BCL at D - C", |program| {
        program.bcl_cap = |row| row.deadline - row.cost
    }),
    ("caps RTA at X - C", |program| {
        program.rta_cap = |row, tried| tried - row.cost
    }),
    ("takes the greatest X", |program| program.rta = greatest),
    ("gives none at the deadline itself", |program| {
        program.bcl = none_at_deadline
    }),
    ("reads marks off the bounds", |program| {
        program.is_marked = bound_below_deadline
    }),
    ("shifts the marks by one", |program| {
        program.marks = |marked| marks(marked) << 1
    }),
    ("loses the mask of 64 rows", |program| {
        program.accepted = by_shifted_mask
    }),
];

/// Other rows are those with other numbers.
fn other_by_value(rows: &[Row], place: usize, asked: usize) -> bool {
    rows[place] != rows[asked]
}

/// Every row once, from the bounds at the start.
fn one_round(program: &Program, sheet: &Sheet, method: u32) -> Vec<u64> {
    let start = first_bounds(&sheet.rows);
    (0..start.len())
        .map(|place| turn(program, sheet, method, place, &start))
        .collect()
}

/// RTA's term without work.
fn without_work(_work: u64, share: u64, cap: u64) -> u64 {
    share.min(cap)
}

/// Passes until every row has an answer, as the papers do.
fn until_all_marked(program: &Program, sheet: &Sheet, method: u32) -> Vec<u64> {
    let mut bounds = first_bounds(&sheet.rows);
    let order: Vec<usize> = (0..bounds.len()).collect();
    let all_marked = |bounds: &[u64]| {
        order
            .iter()
            .all(|&place| one_row(program, sheet, method, place, bounds).is_some())
    };
    while pass(program, sheet, method, &order, &mut bounds) && !all_marked(&bounds) {}
    bounds
}

/// The costs as first bounds.
pub fn costs(rows: &[Row]) -> Vec<u64> {
    rows.iter().map(|row| row.cost).collect()
}

/// The share as if the other row had no slack.
fn share_without_slack(other: Row, _bound: u64, window: u64) -> u64 {
    share(other, other.deadline, window)
}

/// The work as if the other row's bound were its deadline.
fn work_without_bound(other: Row, _bound: u64, length: u64) -> u64 {
    work(other, other.deadline, length)
}

/// The work with the number of periods rounded up.
fn work_with_ceiling(other: Row, bound: u64, length: u64) -> u64 {
    let reach = length + bound - other.cost;
    let whole = reach.div_ceil(other.period);
    whole * other.cost + other.cost.min(reach.saturating_sub(whole * other.period))
}

/// The greatest solution.
fn greatest(program: &Program, sheet: &Sheet, asked: usize, bounds: &[u64]) -> Option<u64> {
    solutions(program, sheet, asked, bounds).next_back()
}

/// BCL's answer, but none where it is the deadline.
fn none_at_deadline(program: &Program, sheet: &Sheet, asked: usize, bounds: &[u64]) -> Option<u64> {
    (DOCUMENT.bcl)(program, sheet, asked, bounds)
        .filter(|&bound| bound < sheet.rows[asked].deadline)
}

/// Marked where the bound has come below the deadline.
fn bound_below_deadline(
    _program: &Program,
    sheet: &Sheet,
    _method: u32,
    place: usize,
    bounds: &[u64],
) -> bool {
    bounds[place] < sheet.rows[place].deadline
}

/// Accepted where the marks are 1 shifted by the row count, less 1, in 64 bits.
fn by_shifted_mask(marked: &[bool]) -> bool {
    marks(marked) == 1u64.wrapping_shl(marked.len() as u32).wrapping_sub(1)
}
