//! Rows, sheets and the words that say them.

use crate::call::Columns;

/// A row: its cost, its relative deadline and its period, in microseconds.
#[derive(Clone, Copy, PartialEq, Eq, Debug)]
pub struct Row {
    pub cost: u64,
    pub deadline: u64,
    pub period: u64,
}

/// A sheet: its rows by place, and how many equal processors serve them.
#[derive(Clone, PartialEq, Eq, Debug)]
pub struct Sheet {
    pub rows: Vec<Row>,
    pub processors: u64,
}

/// The row that three words say: cost, deadline, period.
pub fn row_of(words: &[u32]) -> Row {
    Row {
        cost: words[0] as u64,
        deadline: words[1] as u64,
        period: words[2] as u64,
    }
}

/// The row that stands at a place of three columns.
pub fn row_in_columns(columns: &Columns, place: usize) -> Row {
    let [costs, deadlines, periods] = columns;
    Row {
        cost: costs[place] as u64,
        deadline: deadlines[place] as u64,
        period: periods[place] as u64,
    }
}

/// The words that say these rows, three a row.
pub fn words_of(rows: &[Row]) -> Vec<u32> {
    let triple = |row: &Row| [row.cost as u32, row.deadline as u32, row.period as u32];
    rows.iter().flat_map(triple).collect()
}

/// The columns that say these rows.
pub fn columns_of(rows: &[Row]) -> Columns {
    let column = |number: fn(&Row) -> u64| rows.iter().map(|row| number(row) as u32).collect();
    [
        column(|row| row.cost),
        column(|row| row.deadline),
        column(|row| row.period),
    ]
}
