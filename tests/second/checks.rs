//! Refusals: all checks that hold are gathered, and the first in number order is given.

use crate::call::{Call, Columns, Entry};
use crate::program::Program;
use crate::rows::Row;

/// A refusal's number and place.
#[derive(Clone, Copy, PartialEq, Eq, Debug)]
pub struct Refusal {
    pub number: u32,
    pub place: u32,
}

/// The checks that apply to an entry, apart from the line form.
pub fn applying(entry: Entry) -> &'static [u32] {
    match entry.question() {
        Entry::OneRow => &[2, 3, 4, 5, 8, 9],
        Entry::OneProcessor => &[2, 3, 6, 8],
        Entry::ReadSheet | Entry::WriteSheet | Entry::Pieces => &[2, 3, 4, 7, 8],
        Entry::AnswerSheet | Entry::Density => &[2, 3, 4, 8],
        _ => &[2, 3, 4, 5, 7, 8],
    }
}

/// The words or bytes that an answer about so many rows takes.
pub fn room_needed(entry: Entry, rows: usize) -> usize {
    match entry.question() {
        Entry::OneRow | Entry::OneProcessor | Entry::Density => 0,
        Entry::ReadSheet | Entry::Pieces => 3 * rows,
        Entry::WriteSheet => 7 + 21 * rows,
        Entry::WriteResult | Entry::AnswerSheet => 7 + 11 * rows,
        _ => rows,
    }
}

/// Whether lists of these lengths are no columns: one is empty, or the shortest is not as long as the longest.
pub fn columns_wrong(lengths: [usize; 3]) -> bool {
    lengths.contains(&0) || lengths.iter().min() != lengths.iter().max()
}

/// How many rows columns of these lengths say: as many as stand in all of them.
pub fn rows_in_lengths(lengths: [usize; 3]) -> usize {
    lengths.into_iter().min().unwrap_or(0)
}

/// Whether a processor count is outside its sizes.
pub fn processors_wrong(processors: u32) -> bool {
    processors == 0 || processors > 64
}

/// Whether a method is none.
pub fn method_wrong(method: u32) -> bool {
    method > 1
}

/// Whether a horizon is outside its sizes.
pub fn horizon_wrong(horizon: u32) -> bool {
    horizon == 0 || horizon > 16_777_216
}

/// Whether a row is outside the sizes allowed.
pub fn row_wrong(row: Row) -> bool {
    let in_order = 1 <= row.cost && row.cost <= row.deadline && row.deadline <= row.period;
    !in_order || row.period > 1_000_000
}

/// The first place whose row is outside the sizes allowed.
pub fn bad_row(program: &Program, rows: &[Row]) -> Option<usize> {
    rows.iter().position(|&row| (program.row_wrong)(row))
}

/// Whether a one-row question is wrong: its row number, how many bounds it lends, or one of the bounds.
pub fn question_wrong(rows: &[Row], bounds: &[u32], row: u32) -> bool {
    let outside =
        |(row, &bound): (&Row, &u32)| (bound as u64) < row.cost || bound as u64 > row.deadline;
    row as usize >= rows.len() || bounds.len() != rows.len() || rows.iter().zip(bounds).any(outside)
}

/// The rank that a check is made at: its number.
pub fn rank(number: u32) -> u32 {
    number
}

/// The rows that whole triples of lent words say.
pub fn rows_in(program: &Program, words: &[u32]) -> Vec<Row> {
    words.chunks_exact(3).map(program.row_of).collect()
}

/// The rows that three columns say, as far as they are written out.
fn rows_in_columns(program: &Program, columns: &Columns) -> Vec<Row> {
    let lengths = [0, 1, 2].map(|list| columns[list].len());
    let row = |place| (program.row_in_columns)(columns, place);
    (0..(program.rows_in_lengths)(lengths)).map(row).collect()
}

/// The rows that a call says, in triples or in columns.
pub fn rows_said(program: &Program, call: &Call) -> Vec<Row> {
    if call.entry.takes_columns() {
        rows_in_columns(program, &call.columns)
    } else {
        rows_in(program, &call.words)
    }
}

/// Whether what a call is lent for rows is empty or no whole rows.
fn not_rows(program: &Program, call: &Call) -> bool {
    if call.entry.takes_columns() {
        (program.columns_wrong)(call.column_lengths())
    } else {
        call.word_count() == 0 || call.word_count() % 3 != 0
    }
}

/// How many rows a call is lent, those behind the others counted.
fn row_count(program: &Program, call: &Call) -> usize {
    if call.entry.takes_columns() {
        (program.rows_in_lengths)(call.column_lengths())
    } else {
        call.word_count() / 3
    }
}

/// The place of a check on a call where it holds. Bounds of 0 lent behind the others are too many, and none is a bound.
fn held(program: &Program, call: &Call, rows: &[Row], number: u32) -> Option<u32> {
    let holds = match number {
        2 => not_rows(program, call),
        3 => row_count(program, call) > 64,
        4 => (program.processors_wrong)(call.processors),
        5 => (program.method_wrong)(call.method),
        6 => (program.horizon_wrong)(call.horizon),
        7 => call.room < (program.room_needed)(call.entry, row_count(program, call)),
        8 => return (program.bad_row)(program, rows).map(|place| place as u32),
        _ => call.behind.bounds > 0 || (program.question_wrong)(rows, &call.bounds, call.row),
    };
    holds.then_some(0)
}

/// The refusal of a call, if it has one.
pub fn refusal(program: &Program, call: &Call) -> Option<Refusal> {
    let rows = rows_said(program, call);
    let found =
        |&number: &u32| held(program, call, &rows, number).map(|place| Refusal { number, place });
    let all = (program.applying)(call.entry).iter().filter_map(found);
    all.min_by_key(|refusal| (program.rank)(refusal.number))
}
