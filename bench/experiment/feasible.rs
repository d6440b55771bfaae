//! A necessary condition for feasibility, which decides what task sets are looked at.
//!
//! The papers take theirs from Baker and Cirinei, whose text is not at hand; this is the condition of that kind: if all rows
//! release together, no length may need more than all processors can do in it. A row needs in a length the cost of all jobs
//! due within it, and of the next job what cannot be put off past its end.

use second::rows::Row;

/// The longest length looked at.
const LONGEST: f64 = 1_000_000.0;

/// A row's share of one processor.
fn utilisation(row: &Row) -> f64 {
    row.cost as f64 / row.period as f64
}

/// The total utilisation of rows.
pub fn total_utilisation(rows: &[Row]) -> f64 {
    rows.iter().map(utilisation).sum()
}

/// The jobs of a row that are due within a length.
fn jobs_due(row: &Row, length: u64) -> u64 {
    if length < row.deadline {
        0
    } else {
        (length - row.deadline) / row.period + 1
    }
}

/// What a row needs within a length.
fn need(row: &Row, length: u64) -> u64 {
    let jobs = jobs_due(row, length);
    let latest_start = jobs * row.period + row.deadline - row.cost;
    jobs * row.cost + length.saturating_sub(latest_start)
}

/// Whether rows meet the condition on so many processors. The needs exceed a multiple of the length first at a deadline, and
/// never past the length where utilisation alone makes up for deadlines below periods.
pub fn may_be_feasible(rows: &[Row], processors: u64) -> bool {
    let spare = processors as f64 - total_utilisation(rows);
    if spare <= 0.0 {
        return false;
    }
    let early: f64 = rows
        .iter()
        .map(|row| utilisation(row) * (row.period - row.deadline) as f64)
        .sum();
    let last = (early / spare).min(LONGEST) as u64;
    let mut length = 0;
    while length <= last {
        length = rows
            .iter()
            .map(|row| row.deadline + jobs_due(row, length) * row.period)
            .min()
            .unwrap_or(u64::MAX);
        let needed: u64 = rows.iter().map(|row| need(row, length)).sum();
        if needed > processors * length {
            return false;
        }
    }
    true
}
