//! The exact test for one processor, length by length.

use crate::program::Program;
use crate::rows::Row;

/// What the demand test says.
#[derive(Clone, Copy, PartialEq, Eq, Debug)]
pub enum Verdict {
    Undecided,
    Miss(u64),
    Fits(u64),
}

/// The demand of a row in a length: the cost of every job whose deadline can lie within it.
pub fn demand(row: Row, length: u64) -> u64 {
    if length < row.deadline {
        return 0;
    }
    ((length - row.deadline) / row.period + 1) * row.cost
}

/// Whether a demand is more than a length can serve.
pub fn misses(demand: u64, length: u64) -> bool {
    demand > length
}

/// The jobs of a row that can begin within a length.
pub fn jobs_begun(row: Row, length: u64) -> u64 {
    length / row.period + u64::from(length % row.period > 0)
}

/// Whether the cost of all jobs that can begin within a length fills it exactly.
pub fn fills(begun: u64, length: u64) -> bool {
    begun == length
}

/// The verdict within a horizon. Every length up to it is looked at, those past the busy length too: that a busy length
/// settles all later ones is a theorem of the proved program, and is not used here.
pub fn verdict(program: &Program, rows: &[Row], horizon: u64) -> Verdict {
    let mut busy = None;
    for length in 1..=horizon {
        let demand = rows.iter().map(|&row| (program.demand)(row, length)).sum();
        if (program.misses)(demand, length) {
            return Verdict::Miss(length);
        }
        if busy.is_none() && is_busy(program, rows, length) {
            busy = Some(length);
        }
    }
    busy.map_or(Verdict::Undecided, Verdict::Fits)
}

/// Whether a length is filled exactly by the cost of all jobs that can begin within it.
fn is_busy(program: &Program, rows: &[Row], length: u64) -> bool {
    let begun = |row: &Row| (program.jobs_begun)(*row, length) * row.cost;
    (program.fills)(rows.iter().map(begun).sum(), length)
}
