//! The plain methods, written for speed in plain Rust: a row's shares once a turn, 32-bit arithmetic, RTA by climbing from the
//! cost, the demand test from deadline to deadline up to the busy length. Inputs are checked as in the proved program, but a
//! refusal is only 0.

use crate::divide::{Divide, Quiet};

/// Whether rows are within the sizes allowed.
fn rows_allowed(words: &[u32]) -> bool {
    let allowed =
        |row: &[u32]| 1 <= row[0] && row[0] <= row[1] && row[1] <= row[2] && row[2] <= 1_000_000;
    !words.is_empty()
        && words.len() % 3 == 0
        && words.len() <= 192
        && words.chunks_exact(3).all(allowed)
}

/// Whether a question to refine is within the sizes allowed.
pub fn refining_allowed(words: &[u32], processors: u32, method: u32, room: usize) -> bool {
    let parameters = (1..=64).contains(&processors) && method <= 1 && room >= words.len() / 3;
    parameters && rows_allowed(words)
}

/// Whether a question to the demand test is within the sizes allowed.
pub fn demand_test_allowed(words: &[u32], horizon: u32) -> bool {
    rows_allowed(words) && (1..=16_777_216).contains(&horizon)
}

/// Another row as a turn meets it: cost, period, bound less cost, and its share.
#[derive(Clone, Copy, Default)]
pub struct Other {
    pub cost: u32,
    pub period: u32,
    pub ahead: u32,
    pub share: u32,
}

/// The other rows of a turn, worked out once, and how many there are.
pub fn others(words: &[u32], asked: usize, bounds: &[u32]) -> ([Other; 64], usize) {
    let mut all = [Other::default(); 64];
    let mut count = 0;
    let window = words[3 * asked + 1];
    for (place, (row, &bound)) in words.chunks_exact(3).zip(bounds).enumerate() {
        let (cost, deadline, period) = (row[0], row[1], row[2]);
        if place != asked {
            let carried = (window % period).saturating_sub(deadline - bound);
            let share = window / period * cost + carried.min(cost);
            all[count] = Other {
                cost,
                period,
                ahead: bound - cost,
                share,
            };
            count += 1;
        }
    }
    (all, count)
}

/// What another row adds at a value tried. Where the share or the cap is 0 or 1 it is the least, and no division is needed.
fn term(other: &Other, tried: u32, cap: u32) -> u32 {
    let most = other.share.min(cap);
    if most <= 1 {
        return most;
    }
    let reach = tried + other.ahead;
    let whole = reach / other.period;
    let work = whole * other.cost + other.cost.min(reach - whole * other.period);
    work.min(most)
}

/// RTA's right side at a value.
fn right_side(others: &[Other], processors: u32, cost: u32, tried: u32) -> u32 {
    let cap = tried - cost + 1;
    let sum: u32 = others.iter().map(|other| term(other, tried, cap)).sum();
    cost + sum / processors
}

/// RTA's answer: up from the cost, value by value, until one stays or passes the deadline; 0 for none.
fn rta(others: &[Other], processors: u32, cost: u32, deadline: u32) -> u32 {
    let mut tried = cost;
    loop {
        let next = right_side(others, processors, cost, tried);
        if next == tried {
            return tried;
        }
        if next > deadline {
            return 0;
        }
        tried = next;
    }
}

/// BCL's answer; 0 for none.
pub fn bcl(others: &[Other], processors: u32, cost: u32, deadline: u32) -> u32 {
    let cap = deadline - cost + 1;
    let sum: u32 = others.iter().map(|other| other.share.min(cap)).sum();
    let value = cost + sum / processors;
    if value <= deadline {
        value
    } else {
        0
    }
}

/// The one-row answer by either method; 0 for none.
fn one_row(words: &[u32], processors: u32, method: u32, asked: usize, bounds: &[u32]) -> u32 {
    let (all, count) = others(words, asked, bounds);
    let (cost, deadline) = (words[3 * asked], words[3 * asked + 1]);
    if method == 0 {
        bcl(&all[..count], processors, cost, deadline)
    } else {
        rta(&all[..count], processors, cost, deadline)
    }
}

/// One turn of every row, each new bound used at once: the marks, and whether a bound changed.
fn sweep(words: &[u32], processors: u32, method: u32, bounds: &mut [u32]) -> (u64, bool) {
    let (mut marks, mut changed) = (0, false);
    for place in 0..bounds.len() {
        let found = one_row(words, processors, method, place, bounds);
        let next = if found == 0 {
            words[3 * place + 1]
        } else {
            found
        };
        marks |= ((found != 0) as u64) << place;
        changed |= next != bounds[place];
        bounds[place] = next;
    }
    (marks, changed)
}

/// One turn of every row from the bounds before it: the marks, and whether a bound changed.
fn round(words: &[u32], processors: u32, method: u32, bounds: &mut [u32]) -> (u64, bool) {
    let mut start = [0; 64];
    start[..bounds.len()].copy_from_slice(bounds);
    let (mut marks, mut changed) = (0, false);
    for place in 0..bounds.len() {
        let found = one_row(words, processors, method, place, &start[..bounds.len()]);
        let next = if found == 0 {
            words[3 * place + 1]
        } else {
            found
        };
        marks |= ((found != 0) as u64) << place;
        changed |= next != start[place];
        bounds[place] = next;
    }
    (marks, changed)
}

/// Puts every bound at its row's deadline.
pub fn start(words: &[u32], bounds: &mut [u32]) {
    for (bound, row) in bounds.iter_mut().zip(words.chunks_exact(3)) {
        *bound = row[1];
    }
}

/// Refines by the at-once engine; the marks of the last pass, which changed nothing, are the final ones.
pub fn refine_at_once(words: &[u32], processors: u32, method: u32, bounds: &mut [u32]) -> u64 {
    if !refining_allowed(words, processors, method, bounds.len()) {
        return 0;
    }
    start(words, bounds);
    loop {
        let (marks, changed) = sweep(words, processors, method, bounds);
        if !changed {
            return marks;
        }
    }
}

/// Refines by the rounds engine.
pub fn refine_rounds(words: &[u32], processors: u32, method: u32, bounds: &mut [u32]) -> u64 {
    if !refining_allowed(words, processors, method, bounds.len()) {
        return 0;
    }
    start(words, bounds);
    loop {
        let (marks, changed) = round(words, processors, method, bounds);
        if !changed {
            return marks;
        }
    }
}

/// The busy length up to a horizon, by climbing from 1.
pub fn busy_length<D: Divide>(words: &[u32], horizon: u32) -> Option<u32> {
    let mut length: u32 = 1;
    loop {
        let next = words
            .chunks_exact(3)
            .map(|row| D::begun(length, row[2]) * row[0])
            .sum();
        if next == length {
            return Some(length);
        }
        if next > horizon {
            return None;
        }
        length = next;
    }
}

/// The whole periods in a time. Below one period there is none, and no division is needed.
pub fn whole_periods<D: Divide>(time: u32, period: u32) -> u32 {
    if time < period {
        D::spared();
        0
    } else {
        D::whole(time, period)
    }
}

/// The demand in a length, and the first deadline after it.
pub fn demand_and_next<D: Divide>(words: &[u32], length: u32) -> (u32, u32) {
    let (mut demand, mut next) = (0, u32::MAX);
    for row in words.chunks_exact(3) {
        let (cost, deadline, period) = (row[0], row[1], row[2]);
        let jobs = if length < deadline {
            0
        } else {
            whole_periods::<D>(length - deadline, period) + 1
        };
        demand += jobs * cost;
        next = next.min(deadline + jobs * period);
    }
    (demand, next)
}

/// The demand test: outcome (0 undecided, 1 miss, 2 fits) and length.
pub fn one_processor(words: &[u32], horizon: u32) -> (u32, u32) {
    if !demand_test_allowed(words, horizon) {
        return (0, 0);
    }
    let busy = busy_length::<Quiet>(words, horizon);
    let last = busy.unwrap_or(horizon);
    let mut length = 1;
    while length <= last {
        let (demand, next) = demand_and_next::<Quiet>(words, length);
        if demand > length {
            return (1, length);
        }
        length = next;
    }
    busy.map_or((0, 0), |length| (2, length))
}
