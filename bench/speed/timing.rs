//! Times as ratios: sides take turns, and the least processor time of each counts.

use crate::cases::Case;
use crate::clock::used;
use crate::sides::{measured, Side};
use std::hint::black_box;
use std::time::Duration;

/// How often the sides take turns, where that does not take long.
const TURNS: usize = 15;

/// When the sides stop taking turns: after three at the least.
const LONG: Duration = Duration::from_secs(3);

/// The least that a turn takes.
const TURN: Duration = Duration::from_millis(8);

/// The processor time of so many runs.
fn time(case: &Case, side: Side, runs: u32) -> Duration {
    let before = used();
    for _ in 0..runs {
        black_box(measured(black_box(case), black_box(side)));
    }
    used() - before
}

/// How many runs a turn takes.
fn runs_in_a_turn(case: &Case, side: Side) -> u32 {
    let once = time(case, side, 1);
    (TURN.as_nanos() / once.as_nanos().max(1)).clamp(1, 1_000_000) as u32
}

/// Whether the proved program answers a case within a second of processor time.
pub fn under_a_second(case: &Case) -> bool {
    time(case, Side::Proved, 1) < Duration::from_secs(1)
}

/// The other side's least time over the proved program's: above 1 the proved program is the quicker one.
pub fn ratio(case: &Case, other: Side) -> f64 {
    let sides = [Side::Proved, other];
    let runs = sides.map(|side| runs_in_a_turn(case, side));
    let mut least = [f64::MAX; 2];
    let started = used();
    for turn in 0..TURNS {
        if turn >= 3 && used() - started > LONG {
            break;
        }
        for index in 0..2 {
            let each = time(case, sides[index], runs[index]).as_secs_f64() / runs[index] as f64;
            least[index] = least[index].min(each);
        }
    }
    least[1] / least[0]
}
