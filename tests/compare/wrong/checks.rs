//! Slips in the checks and in what a refusal leaves behind.

use super::Slip;
use second::answers::refused;
use second::call::{Answer, Entry};
use second::checks::{self, Refusal};
use second::program::Program;
use second::rows::{row_of, Row};

/// The slips: what a wrong program does, and the part that is exchanged.
pub const SLIPS: [Slip; 12] = [
    ("swaps deadline and period", |program| {
        program.row_of = swapped
    }),
    ("names the last bad row", |program| {
        program.bad_row = last_bad_row
    }),
    ("checks rows before room", |program| {
        program.rank = rows_before_room
    }),
    ("checks too many rows before whole rows", |program| {
        program.rank = many_before_whole
    }),
    ("sees one byte of the processors", |program| {
        program.processors_wrong = |count| checks::processors_wrong(count & 0xFF)
    }),
    ("sees one byte of the method", |program| {
        program.method_wrong = |method| checks::method_wrong(method & 0xFF)
    }),
    ("takes a horizon too long", |program| {
        program.horizon_wrong = |horizon| horizon == 0 || horizon > 16_777_217
    }),
    ("refuses the largest horizon", |program| {
        program.horizon_wrong = |horizon| horizon == 0 || horizon >= 16_777_216
    }),
    ("refuses the largest period", |program| {
        program.row_wrong = |row| checks::row_wrong(row) || row.period == 1_000_000
    }),
    ("takes a period too large", |program| {
        program.row_wrong = |row| checks::row_wrong(row) && row.period != 1_000_001
    }),
    ("leaves the asked row's own bound unchecked", |program| {
        program.question_wrong = own_bound_free
    }),
    ("writes before it refuses", |program| {
        program.refused = refused_and_written
    }),
];

/// Words as cost, period, deadline.
fn swapped(words: &[u32]) -> Row {
    row_of(&[words[0], words[2], words[1]])
}

/// The last row outside the sizes allowed.
fn last_bad_row(program: &Program, rows: &[Row]) -> Option<usize> {
    rows.iter().rposition(|&row| (program.row_wrong)(row))
}

/// The ranks of 7 and 8 swapped.
fn rows_before_room(number: u32) -> u32 {
    match number {
        7 => 8,
        8 => 7,
        _ => number,
    }
}

/// The ranks of 2 and 3 swapped.
pub fn many_before_whole(number: u32) -> u32 {
    match number {
        2 => 3,
        3 => 2,
        _ => number,
    }
}

/// The one-row question checked but for the asked row's own bound.
fn own_bound_free(rows: &[Row], bounds: &[u32], row: u32) -> bool {
    let mut bounds = bounds.to_vec();
    let asked = row as usize;
    if asked < bounds.len() && asked < rows.len() {
        bounds[asked] = rows[asked].cost as u32;
    }
    checks::question_wrong(rows, &bounds, row)
}

/// A refusal that has cleared the first byte or word of the output.
pub fn refused_and_written(entry: Entry, refusal: Refusal) -> Answer {
    let cleared = refused(entry, refusal);
    match entry.question() {
        _ if refusal.number == 7 => cleared,
        Entry::RefineRounds | Entry::RefineAtOnce | Entry::ReadSheet | Entry::Pieces => Answer {
            words: vec![0],
            ..cleared
        },
        Entry::WriteSheet | Entry::WriteResult => Answer {
            text: vec![0],
            ..cleared
        },
        _ => cleared,
    }
}
