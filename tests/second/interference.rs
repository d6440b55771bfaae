//! What another row may take from the row under question.

use crate::rows::Row;

/// Whether the row at a place is another one than the row under question: places decide, not numbers.
pub fn is_other(_rows: &[Row], place: usize, asked: usize) -> bool {
    place != asked
}

/// The demand share of another row, with its current bound, in the asked row's deadline window.
pub fn share(other: Row, bound: u64, window: u64) -> u64 {
    let slack = other.deadline - bound;
    let carried = (window % other.period).saturating_sub(slack);
    window / other.period * other.cost + carried.min(other.cost)
}

/// The work of another row, with its current bound, in a window of some length.
pub fn work(other: Row, bound: u64, length: u64) -> u64 {
    let reach = length + bound - other.cost;
    let whole = reach / other.period;
    whole * other.cost + other.cost.min(reach - whole * other.period)
}

/// The part of a sum that each of the processors has to bear, rounded down.
pub fn divided(sum: u64, processors: u64) -> u64 {
    sum / processors
}
