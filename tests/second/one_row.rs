//! The one-row answer by either method.

use crate::program::Program;
use crate::rows::{Row, Sheet};

/// Another row as the asked row meets it: its numbers, its current bound, its demand share.
struct Other {
    row: Row,
    bound: u64,
    share: u64,
}

/// Every other row of the sheet, as the asked row meets it.
fn others_of(program: &Program, sheet: &Sheet, asked: usize, bounds: &[u64]) -> Vec<Other> {
    let window = sheet.rows[asked].deadline;
    let places =
        (0..sheet.rows.len()).filter(|&place| (program.is_other)(&sheet.rows, place, asked));
    let meet = |place: usize| {
        let (row, bound) = (sheet.rows[place], bounds[place]);
        let share = (program.share)(row, bound, window);
        Other { row, bound, share }
    };
    places.map(meet).collect()
}

/// The most that BCL counts of one other row.
pub fn bcl_cap(row: Row) -> u64 {
    row.deadline - row.cost + 1
}

/// The most that RTA counts of one other row at a value tried.
pub fn rta_cap(row: Row, tried: u64) -> u64 {
    tried - row.cost + 1
}

/// What RTA counts of one other row.
pub fn rta_term(work: u64, share: u64, cap: u64) -> u64 {
    work.min(share).min(cap)
}

/// BCL's answer for the row at a place: its formula's value where that meets the deadline.
pub fn bcl(program: &Program, sheet: &Sheet, asked: usize, bounds: &[u64]) -> Option<u64> {
    let row = sheet.rows[asked];
    let cap = (program.bcl_cap)(row);
    let others = others_of(program, sheet, asked, bounds);
    let sum = others.iter().map(|other| other.share.min(cap)).sum();
    let value = row.cost + (program.divided)(sum, sheet.processors);
    (value <= row.deadline).then_some(value)
}

/// RTA's right side for the row at a place, as a function of the value tried.
pub fn right_side(
    program: &Program,
    sheet: &Sheet,
    asked: usize,
    bounds: &[u64],
) -> impl Fn(u64) -> u64 {
    let (program, processors, row) = (*program, sheet.processors, sheet.rows[asked]);
    let others = others_of(&program, sheet, asked, bounds);
    move |tried: u64| {
        let cap = (program.rta_cap)(row, tried);
        let term = |other: &Other| {
            (program.rta_term)(
                (program.work)(other.row, other.bound, tried),
                other.share,
                cap,
            )
        };
        let sum = others.iter().map(term).sum();
        row.cost + (program.divided)(sum, processors)
    }
}

/// The values from the asked row's cost up to its deadline that equal their own right side, each tried as it is asked for.
pub fn solutions(
    program: &Program,
    sheet: &Sheet,
    asked: usize,
    bounds: &[u64],
) -> impl DoubleEndedIterator<Item = u64> {
    let row = sheet.rows[asked];
    let right_side = right_side(program, sheet, asked, bounds);
    (row.cost..=row.deadline).filter(move |&tried| tried == right_side(tried))
}

/// RTA's answer for the row at a place: the least solution.
pub fn rta(program: &Program, sheet: &Sheet, asked: usize, bounds: &[u64]) -> Option<u64> {
    solutions(program, sheet, asked, bounds).next()
}

/// The one-row answer by method 0, BCL, or 1, RTA.
pub fn one_row(
    program: &Program,
    sheet: &Sheet,
    method: u32,
    asked: usize,
    bounds: &[u64],
) -> Option<u64> {
    let by_method = if method == 0 {
        program.bcl
    } else {
        program.rta
    };
    by_method(program, sheet, asked, bounds)
}
