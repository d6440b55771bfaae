//! Changes of a candidate.

use crate::candidate::Candidate;
use crate::start::HORIZON;
use second::random::Random;
use second::rows::Row;

/// The largest number of a row.
const LARGEST: u64 = 1_000_000;

/// A way to change a candidate.
type Change = fn(&mut Candidate, &mut Random);

/// Every way; some stand several times to come more often.
const WAYS: [Change; 10] = [
    one_number,
    one_number,
    one_number,
    twins_number,
    twins_number,
    another_row,
    one_row_less,
    two_swapped,
    other_processors,
    other_horizon,
];

/// A candidate with one to three changes.
pub fn changed(candidate: &Candidate, random: &mut Random) -> Candidate {
    let mut next = candidate.clone();
    for _ in 0..random.within(1, 3) {
        random.one_of(&WAYS)(&mut next, random);
    }
    next
}

/// Another number near one or far from it.
fn other_number(number: u64, random: &mut Random) -> u64 {
    let (less, more) = (random.within(0, 3), random.within(0, 3));
    let part = random.within(0, number / 16);
    let any = random.within(1, LARGEST) >> random.below(20);
    let choices = [
        number.saturating_sub(less),
        number + more,
        number.saturating_sub(part),
        number + part,
        number * 2,
        number / 2,
        any,
    ];
    random.one_of(&choices)
}

/// A row with another cost, deadline or period, and the others moved as far as the sizes ask.
fn other_row(row: Row, random: &mut Random) -> Row {
    let place = random.below(4);
    let number = |at: usize, old: u64, random: &mut Random| {
        if at == place {
            other_number(old, random)
        } else {
            old
        }
    };
    let cost = number(0, row.cost, random).clamp(1, LARGEST);
    let deadline = number(1, row.deadline, random).clamp(cost, LARGEST);
    let period = number(2, row.period, random).clamp(deadline, LARGEST);
    Row {
        cost,
        deadline: if place == 3 { period } else { deadline },
        period,
    }
}

/// Changes a number of one row.
fn one_number(candidate: &mut Candidate, random: &mut Random) {
    let place = random.below(candidate.rows.len());
    candidate.rows[place] = other_row(candidate.rows[place], random);
}

/// Changes a number of one row and of all its twins.
fn twins_number(candidate: &mut Candidate, random: &mut Random) {
    let old = random.one_of(&candidate.rows);
    let new = other_row(old, random);
    let twins = candidate.rows.iter_mut().filter(|row| **row == old);
    twins.for_each(|row| *row = new);
}

/// Puts a row in, like one that is there; at times a whole run of twins.
fn another_row(candidate: &mut Candidate, random: &mut Random) {
    let twin = random.one_of(&candidate.rows);
    let other = other_row(twin, random);
    let row = random.one_of(&[twin, other]);
    let place = random.below(candidate.rows.len() + 1);
    for _ in 0..random.one_of(&[1, 1, 4, 16]) {
        candidate.rows.insert(place, row);
    }
    candidate.rows.truncate(64);
}

/// Takes a row out.
fn one_row_less(candidate: &mut Candidate, random: &mut Random) {
    if candidate.rows.len() > 1 {
        candidate.rows.remove(random.below(candidate.rows.len()));
    }
}

/// Changes places of two rows.
fn two_swapped(candidate: &mut Candidate, random: &mut Random) {
    let count = candidate.rows.len();
    candidate
        .rows
        .swap(random.below(count), random.below(count));
}

/// Takes another number of processors.
fn other_processors(candidate: &mut Candidate, random: &mut Random) {
    let now = candidate.processors;
    let any = random.within(1, 64) as u32;
    candidate.processors = random
        .one_of(&[now + 1, now.saturating_sub(1), any])
        .clamp(1, 64);
}

/// Takes another horizon.
fn other_horizon(candidate: &mut Candidate, random: &mut Random) {
    let next = other_number(candidate.horizon as u64, random);
    candidate.horizon = random.one_of(&[next, HORIZON]).clamp(1, HORIZON) as u32;
}
