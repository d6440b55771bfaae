//! Slips in taking rows from columns.

use super::checks::{many_before_whole, refused_and_written};
use super::Slip;
use second::answers::refused;
use second::call::Columns;
use second::checks::columns_wrong;
use second::program::Program;
use second::rows::{row_of, Row};

/// The slips in the rows that columns say: what a wrong program does, and the part that is exchanged.
pub const ROWS: [Slip; 4] = [
    ("swaps deadlines and periods of columns", |program| {
        program.row_in_columns = |columns, place| taken_from(columns, place, [0, 2, 1])
    }),
    ("swaps costs and deadlines of columns", |program| {
        program.row_in_columns = |columns, place| taken_from(columns, place, [1, 0, 2])
    }),
    ("swaps costs and periods of columns", |program| {
        program.row_in_columns = |columns, place| taken_from(columns, place, [2, 1, 0])
    }),
    ("takes the deadlines for the periods too", |program| {
        program.row_in_columns = |columns, place| taken_from(columns, place, [0, 1, 1])
    }),
];

/// The slips in what lengths of columns are taken for.
pub const LENGTHS: [Slip; 17] = [
    ("compares costs with deadlines only", |program| {
        program.columns_wrong = |[costs, deadlines, _]| costs == 0 || costs != deadlines
    }),
    ("compares deadlines with periods only", |program| {
        program.columns_wrong = |[_, deadlines, periods]| periods == 0 || deadlines != periods
    }),
    ("compares costs with periods only", |program| {
        program.columns_wrong = |[costs, _, periods]| costs == 0 || costs != periods
    }),
    ("takes costs that are longer", |program| {
        program.columns_wrong = longer_taken::<0>
    }),
    ("takes deadlines that are longer", |program| {
        program.columns_wrong = longer_taken::<1>
    }),
    ("takes periods that are longer", |program| {
        program.columns_wrong = longer_taken::<2>
    }),
    ("takes costs that are shorter", |program| {
        program.columns_wrong = shorter_taken::<0>
    }),
    ("takes deadlines that are shorter", |program| {
        program.columns_wrong = shorter_taken::<1>
    }),
    ("takes periods that are shorter", |program| {
        program.columns_wrong = shorter_taken::<2>
    }),
    ("holds all words against three times the costs", |program| {
        program.columns_wrong =
            |lengths| lengths[0] == 0 || lengths.iter().sum::<usize>() != 3 * lengths[0]
    }),
    ("takes three lists without a word", |program| {
        program.columns_wrong = |lengths| lengths != [lengths[0]; 3]
    }),
    ("takes as many rows as the longest column has", by_longest),
    ("takes as many rows as the shortest column has", |program| {
        program.columns_wrong = |lengths| lengths.contains(&0)
    }),
    ("takes as many rows as there are costs", by_costs),
    (
        "sees that all columns are long before they differ",
        |program| program.rank = many_before_whole,
    ),
    (
        "sees that one column is long before they differ",
        |program| {
            by_longest_count(program);
            program.rank = many_before_whole
        },
    ),
    (
        "sees that the costs are long before they differ",
        |program| {
            by_costs_count(program);
            program.rank = many_before_whole
        },
    ),
];

/// The slips in what a refusal leaves behind.
pub const WRITING: [Slip; 1] = [("writes before it refuses columns that differ", |program| {
    program.refused = |entry, refusal| match refusal.number {
        2 => refused_and_written(entry, refusal),
        _ => refused(entry, refusal),
    }
})];

/// Whether lists of these lengths are no columns, with one that is longer than the next taken for as long.
fn longer_taken<const LIST: usize>(mut lengths: [usize; 3]) -> bool {
    lengths[LIST] = lengths[LIST].min(lengths[(LIST + 1) % 3]);
    columns_wrong(lengths)
}

/// Whether lists of these lengths are no columns, with one that is shorter than the next taken for as long.
fn shorter_taken<const LIST: usize>(mut lengths: [usize; 3]) -> bool {
    lengths[LIST] = lengths[LIST].max(lengths[(LIST + 1) % 3]);
    columns_wrong(lengths)
}

/// The word at a place of a list, 0 behind its end.
fn word(list: &[u32], place: usize) -> u32 {
    list.get(place).copied().unwrap_or(0)
}

/// The row at a place, with its numbers taken from these lists.
pub fn taken_from(columns: &Columns, place: usize, lists: [usize; 3]) -> Row {
    row_of(&lists.map(|list| word(&columns[list], place)))
}

/// Counts rows by the longest column, with 0 for words that are not there.
fn by_longest_count(program: &mut Program) {
    program.rows_in_lengths = |lengths| lengths.into_iter().max().unwrap_or(0);
    program.row_in_columns = |columns, place| taken_from(columns, place, [0, 1, 2]);
}

/// Counts rows by the costs, with 0 for words that are not there.
fn by_costs_count(program: &mut Program) {
    program.rows_in_lengths = |[costs, _, _]| costs;
    program.row_in_columns = |columns, place| taken_from(columns, place, [0, 1, 2]);
}

/// Takes whatever lists there are, as long as one has a word, and counts rows by the longest.
fn by_longest(program: &mut Program) {
    by_longest_count(program);
    program.columns_wrong = |lengths| lengths == [0; 3];
}

/// Takes whatever lists there are, as long as there are costs, and counts rows by them.
fn by_costs(program: &mut Program) {
    by_costs_count(program);
    program.columns_wrong = |[costs, _, _]| costs == 0;
}
