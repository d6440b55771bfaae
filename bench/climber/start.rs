//! Where a climb begins: a random sheet at a random scale, or one of the slow families at full size.

use crate::candidate::Candidate;
use second::random::Random;
use second::rows::{Row, Sheet};
use sheets::families::*;
use sheets::{sheet, KINDS};

/// The largest horizon.
pub const HORIZON: u64 = 16_777_216;

/// A sheet for one processor.
fn on_one(rows: Vec<Row>) -> Sheet {
    Sheet {
        rows,
        processors: 1,
    }
}

/// One of the slow families at or near full size.
fn of_a_family(random: &mut Random) -> Sheet {
    let (any_step, any_long) = (
        random.within(1_000, 199_980),
        random.within(100_000, 1_000_000),
    );
    let step = random.one_of(&[199_980, any_step]);
    let long = random.one_of(&[1_000_000, any_long]);
    match random.below(9) {
        0 => on_one(climbing_pair(step)),
        1 => crowded_pair(step, 31, 62),
        2 => crowded_pair(step, random.within(1, 31) as usize, random.within(0, 64)),
        3 => halves(32, long),
        4 => unit_fractions(&[2, 3, 7, 43], 60, long),
        5 => unit_fractions(&[2, 3, 7, 43, 2068], 59, long),
        6 => on_one(every_length_due(random.within(1, 63), long)),
        7 => on_one(never_decided()),
        _ => on_one(nearly_one(long)),
    }
}

/// A random sheet of any kind, its numbers multiplied as far as the sizes allow.
fn scaled(random: &mut Random) -> Sheet {
    let kind = random.one_of(&KINDS);
    let mut drawn = sheet(kind, random);
    drawn.rows.truncate(64);
    let largest = drawn.rows.iter().map(|row| row.period).max().unwrap_or(1);
    let most = (1_000_000 / largest).max(1);
    let some = random.within(1, most);
    let scale = random.one_of(&[1, most, some]);
    let row = |row: &Row| Row {
        cost: row.cost * scale,
        deadline: row.deadline * scale,
        period: row.period * scale,
    };
    drawn.rows = drawn.rows.iter().map(row).collect();
    drawn
}

/// A candidate of an entry that a climb begins with.
pub fn start(entry: usize, random: &mut Random) -> Candidate {
    let drawn = if random.once_in(2) {
        of_a_family(random)
    } else {
        scaled(random)
    };
    let rows = if drawn.rows.is_empty() {
        climbing_pair(1)
    } else {
        drawn.rows
    };
    let horizon = random.within(1, HORIZON);
    Candidate {
        entry,
        processors: drawn.processors as u32,
        horizon: random.one_of(&[HORIZON, HORIZON, horizon]) as u32,
        rows,
    }
}
