//! The proved program's own methods, guess and check, written for speed in plain Rust. A climb jumps over values that cannot
//! be solutions; between sweeps a ray lowers many bounds at once; a sweep that changes nothing ends it. The demand test goes
//! backward from the last length and names a miss by going forward. Inputs are checked as there, but a refusal is only 0.

mod climb;
mod demand;
mod others;
mod ray;

pub use demand::{one_processor, one_processor_by};

use crate::plain::{refining_allowed, start};
use climb::least_solution;
use others::Others;

/// A ray is tried after every so many sweeps that changed something.
const SWEEPS_TO_A_RAY: u32 = 4;

/// What is refined: the rows' words, the processors, and the method, 0 for BCL and 1 for RTA.
#[derive(Clone, Copy)]
struct Asked<'a> {
    words: &'a [u32],
    processors: u32,
    method: u32,
}

/// BCL's answer; 0 for none.
fn formula(others: &Others, processors: u32, cost: u32, deadline: u32) -> u32 {
    let value = cost + others.shares(deadline - cost + 1) / processors;
    if value <= deadline {
        value
    } else {
        0
    }
}

/// The one-row answer by either method; 0 for none.
fn one_row(asked: Asked, place: usize, bounds: &[u32], others: &mut Others) -> u32 {
    let (cost, deadline) = (asked.words[3 * place], asked.words[3 * place + 1]);
    others.meet(asked.words, place, bounds);
    if asked.method == 0 {
        formula(others, asked.processors, cost, deadline)
    } else {
        least_solution(others, asked.processors, cost, deadline)
    }
}

/// One turn of every row, each new bound used at once: the marks. How far each bound fell is written to the drops; one that
/// rises shows a ray that went too far, and breaks the run off.
fn sweep(asked: Asked, bounds: &mut [u32], drops: &mut [u32], others: &mut Others) -> u64 {
    let mut marks = 0;
    for place in 0..bounds.len() {
        let found = one_row(asked, place, bounds, others);
        drops[place] = 0;
        if found != 0 {
            marks |= 1 << place;
            let fallen = bounds[place].checked_sub(found);
            drops[place] = fallen.expect("a bound that does not rise");
            bounds[place] = found;
        }
    }
    marks
}

/// Refines by the at-once engine; the marks of the last sweep, which changed nothing, are the final ones. A ray goes by the
/// least drop of each row since the last ray, the next one by the last drop alone, and so by turns.
pub fn refine_at_once(words: &[u32], processors: u32, method: u32, bounds: &mut [u32]) -> u64 {
    if !refining_allowed(words, processors, method, bounds.len()) {
        return 0;
    }
    let bounds = &mut bounds[..words.len() / 3];
    start(words, bounds);
    let asked = Asked {
        words,
        processors,
        method,
    };
    let (mut drops, mut least, mut others) = ([0; 64], [u32::MAX; 64], Others::none());
    let (drops, least) = (&mut drops[..bounds.len()], &mut least[..bounds.len()]);
    let mut sweeps = 0;
    loop {
        let marks = sweep(asked, bounds, drops, &mut others);
        if drops.iter().all(|&drop| drop == 0) {
            return marks;
        }
        lower_each(least, drops);
        sweeps += 1;
        if sweeps % SWEEPS_TO_A_RAY == 0 {
            ray::lower(asked, bounds, least);
        }
        let by_turns = sweeps % (2 * SWEEPS_TO_A_RAY);
        if by_turns == 0 || by_turns >= SWEEPS_TO_A_RAY {
            least.fill(u32::MAX);
        }
    }
}

/// Lowers each number to another one where that is less.
fn lower_each(numbers: &mut [u32], others: &[u32]) {
    for (number, &other) in numbers.iter_mut().zip(others) {
        *number = (*number).min(other);
    }
}
