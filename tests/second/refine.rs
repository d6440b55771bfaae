//! Refining a sheet, in a random order of rows, until no turn changes anything.

use crate::one_row::one_row;
use crate::program::Program;
use crate::random::Random;
use crate::rows::{Row, Sheet};

/// The bounds that refining begins with: every row's deadline.
pub fn first_bounds(rows: &[Row]) -> Vec<u64> {
    rows.iter().map(|row| row.deadline).collect()
}

/// What a turn gives the row at a place: the one-row answer, or its deadline where there is none.
pub fn turn(program: &Program, sheet: &Sheet, method: u32, place: usize, bounds: &[u64]) -> u64 {
    one_row(program, sheet, method, place, bounds).unwrap_or(sheet.rows[place].deadline)
}

/// One turn of every row in the order given, each new bound used at once; tells whether any bound changed.
pub fn pass(
    program: &Program,
    sheet: &Sheet,
    method: u32,
    order: &[usize],
    bounds: &mut [u64],
) -> bool {
    let mut changed = false;
    for &place in order {
        let next = turn(program, sheet, method, place, bounds);
        changed |= next != bounds[place];
        bounds[place] = next;
    }
    changed
}

/// The final bounds: passes in random orders, drawn from the sheet's own numbers, until one changes nothing. A pass that
/// changes something lowers a bound, so there are no more of them than units between costs and deadlines; a wrong program
/// that would go round in circles ends there too.
pub fn refined(program: &Program, sheet: &Sheet, method: u32) -> Vec<u64> {
    let numbers = sheet
        .rows
        .iter()
        .flat_map(|row| [row.cost, row.deadline, row.period]);
    let mut random = Random::of(numbers);
    let mut bounds = (program.first_bounds)(&sheet.rows);
    let most: u64 = sheet.rows.iter().map(|row| row.deadline - row.cost).sum();
    for _ in 0..=most {
        let order = random.order(sheet.rows.len());
        if !pass(program, sheet, method, &order, &mut bounds) {
            break;
        }
    }
    bounds
}

/// Whether the row at a place is marked: its one-row answer under the final bounds exists.
pub fn is_marked(
    program: &Program,
    sheet: &Sheet,
    method: u32,
    place: usize,
    bounds: &[u64],
) -> bool {
    one_row(program, sheet, method, place, bounds).is_some()
}

/// Which rows are marked under the final bounds.
pub fn marked_rows(program: &Program, sheet: &Sheet, method: u32, bounds: &[u64]) -> Vec<bool> {
    let marked = |place| (program.is_marked)(program, sheet, method, place, bounds);
    (0..sheet.rows.len()).map(marked).collect()
}

/// The marks as one number: bit k for row k.
pub fn marks(marked: &[bool]) -> u64 {
    let bit = |(place, &is_marked): (usize, &bool)| (is_marked as u64) << place;
    marked.iter().enumerate().map(bit).sum()
}

/// Whether a sheet is accepted: every row is marked.
pub fn accepted(marked: &[bool]) -> bool {
    marked.iter().all(|&is_marked| is_marked)
}
