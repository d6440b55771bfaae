//! The rows of a call, in triples or in columns, whichever way its entry takes them.

use second::call::{Call, Columns, Entry};
use second::rows::{columns_of, words_of, Row};

/// The entries that are lent columns.
pub const BY_COLUMNS: [Entry; 6] = [
    Entry::OneRowColumns,
    Entry::RefineRoundsColumns,
    Entry::RefineAtOnceColumns,
    Entry::OneProcessorColumns,
    Entry::WriteResultColumns,
    Entry::DensityColumns,
];

/// The call with these rows.
pub fn with_rows(call: Call, rows: &[Row]) -> Call {
    let (words, columns) = if call.entry.takes_columns() {
        (Vec::new(), columns_of(rows))
    } else {
        (words_of(rows), Columns::default())
    };
    Call {
        words,
        columns,
        ..call
    }
}

/// How many whole rows of a call are written out.
pub fn row_count(call: &Call) -> usize {
    if call.entry.takes_columns() {
        call.columns.iter().map(Vec::len).min().unwrap_or(0)
    } else {
        call.words.len() / 3
    }
}

/// One of the three numbers of the row at a place.
pub fn number(call: &mut Call, place: usize, which: usize) -> &mut u32 {
    if call.entry.takes_columns() {
        &mut call.columns[which][place]
    } else {
        &mut call.words[3 * place + which]
    }
}

/// The row at a place: its cost, its deadline and its period.
pub fn row_at(call: &Call, place: usize) -> [u32; 3] {
    if call.entry.takes_columns() {
        [0, 1, 2].map(|which| call.columns[which][place])
    } else {
        [0, 1, 2].map(|which| call.words[3 * place + which])
    }
}

/// Puts another row to a place.
pub fn set_row(call: &mut Call, place: usize, row: [u32; 3]) {
    for (which, word) in row.into_iter().enumerate() {
        *number(call, place, which) = word;
    }
}

/// Leaves out the row at a place.
pub fn remove_row(call: &mut Call, place: usize) {
    if call.entry.takes_columns() {
        for column in &mut call.columns {
            column.remove(place);
        }
    } else {
        call.words.drain(3 * place..3 * place + 3);
    }
}

/// Leaves out all rows but so many at the front.
pub fn keep_rows(call: &mut Call, count: usize) {
    call.words.truncate(3 * count);
    for column in &mut call.columns {
        column.truncate(count);
    }
}

/// The same question about the same rows in columns, where an entry takes them so.
pub fn in_columns(call: &Call) -> Option<Call> {
    let asks_the_same = |entry: &Entry| entry.question() == call.entry;
    let entry = BY_COLUMNS.into_iter().find(asks_the_same)?;
    let column = |which: usize| call.words.iter().skip(which).step_by(3).copied().collect();
    Some(Call {
        entry,
        words: Vec::new(),
        columns: [0, 1, 2].map(column),
        ..call.clone()
    })
}

/// Whether three numbers are the same.
fn all_the_same([one, other, last]: [usize; 3]) -> bool {
    one == other && other == last
}

/// The same question about the same rows in triples, where the columns of a call are of one length.
pub fn in_triples(call: &Call) -> Option<Call> {
    let lengths = [0, 1, 2].map(|list| call.columns[list].len());
    if !all_the_same(lengths) || !all_the_same(call.behind.columns) {
        return None;
    }
    let rows = 0..row_count(call);
    let mut triples = Call {
        entry: call.entry.question(),
        words: rows.flat_map(|place| row_at(call, place)).collect(),
        columns: Columns::default(),
        ..call.clone()
    };
    triples.behind.words = 3 * call.behind.columns[0];
    triples.behind.columns = [0; 3];
    Some(triples)
}
