//! Slips of programs that give up: after so many passes, steps of a climb, or deadlines.

use super::Slip;
use second::one_processor::{verdict, Verdict};
use second::program::Program;
use second::refine::{first_bounds, pass};
use second::rows::{Row, Sheet};

/// The slips in refining: what a wrong program does, and the part that is exchanged.
pub const PASSES: [Slip; 2] = [
    ("stops after 100 passes", |program| {
        program.refined = passes::<100>
    }),
    ("stops after 500 passes", |program| {
        program.refined = passes::<500>
    }),
];

/// The slips on one processor.
pub const SEARCHES: [Slip; 5] = [
    ("gives up a busy climb after 10 steps", |program| {
        program.verdict = busy_climb::<10>
    }),
    ("gives up a busy climb after 50 steps", |program| {
        program.verdict = busy_climb::<50>
    }),
    ("gives up a busy climb after 200 steps", |program| {
        program.verdict = busy_climb::<200>
    }),
    ("gives up a search after 100 deadlines", |program| {
        program.verdict = deadline_search::<100>
    }),
    ("gives up a search after 1,000 deadlines", |program| {
        program.verdict = deadline_search::<1_000>
    }),
];

/// Passes, rows 0 upward, until one changes nothing, but no more than a limit.
pub fn passes<const LIMIT: usize>(program: &Program, sheet: &Sheet, method: u32) -> Vec<u64> {
    let mut bounds = first_bounds(&sheet.rows);
    let order: Vec<usize> = (0..bounds.len()).collect();
    (0..LIMIT).any(|_| !pass(program, sheet, method, &order, &mut bounds));
    bounds
}

/// How many steps a climb takes to a busy length: from the costs, each time to the cost of all jobs begun.
fn steps_to_busy(rows: &[Row], busy: u64) -> usize {
    let begun = |length: u64| -> u64 {
        let cost = |row: &Row| length.div_ceil(row.period) * row.cost;
        rows.iter().map(cost).sum()
    };
    let climb = std::iter::successors(Some(1), |&length| (length < busy).then(|| begun(length)));
    climb.count()
}

/// Fits only where the climb to the busy length is short.
pub fn busy_climb<const STEPS: usize>(program: &Program, rows: &[Row], horizon: u64) -> Verdict {
    match verdict(program, rows, horizon) {
        Verdict::Fits(busy) if steps_to_busy(rows, busy) > STEPS => Verdict::Undecided,
        other => other,
    }
}

/// A miss only where few deadlines come before it.
pub fn deadline_search<const COUNT: u64>(program: &Program, rows: &[Row], horizon: u64) -> Verdict {
    let due_within = |length: u64| -> u64 {
        let due = |row: &Row| (length + row.period - row.deadline) / row.period;
        rows.iter().map(due).sum()
    };
    match verdict(program, rows, horizon) {
        Verdict::Miss(length) if due_within(length) > COUNT => Verdict::Undecided,
        other => other,
    }
}
