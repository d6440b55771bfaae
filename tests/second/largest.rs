//! The largest consistent set of a tiny sheet, by trying every set of bounds.

use crate::program::Program;
use crate::refine::turn;
use crate::rows::Sheet;

/// How many sets of bounds from costs to deadlines a sheet has.
pub fn how_many_sets(sheet: &Sheet) -> u64 {
    let choices = |row: &crate::rows::Row| row.deadline - row.cost + 1;
    sheet.rows.iter().map(choices).fold(1, u64::saturating_mul)
}

/// The set of bounds with a number: the number is written in the rows' own bases, first row first.
fn set_with_number(sheet: &Sheet, mut number: u64) -> Vec<u64> {
    let mut set = Vec::new();
    for row in &sheet.rows {
        let choices = row.deadline - row.cost + 1;
        set.push(row.cost + number % choices);
        number /= choices;
    }
    set
}

/// Whether every bound of a set is what its row's turn gives.
fn is_consistent(program: &Program, sheet: &Sheet, method: u32, set: &[u64]) -> bool {
    (0..set.len()).all(|place| set[place] == turn(program, sheet, method, place, set))
}

/// Whether no bound of one set is above that of the other.
fn is_below(one: &[u64], other: &[u64]) -> bool {
    one.iter().zip(other).all(|(a, b)| a <= b)
}

/// Every consistent set of a sheet.
pub fn consistent_sets(program: &Program, sheet: &Sheet, method: u32) -> Vec<Vec<u64>> {
    let sets = (0..how_many_sets(sheet)).map(|number| set_with_number(sheet, number));
    sets.filter(|set| is_consistent(program, sheet, method, set))
        .collect()
}

/// The consistent set that every consistent set lies below, if there is one.
pub fn largest(program: &Program, sheet: &Sheet, method: u32) -> Option<Vec<u64>> {
    let sets = consistent_sets(program, sheet, method);
    let above_all = |set: &&Vec<u64>| sets.iter().all(|other| is_below(other, set));
    sets.iter().find(above_all).cloned()
}
