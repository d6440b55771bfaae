//! Slips that a quick program may have: in jumps of a climb, in rays between passes, in steps backward.

use super::Slip;
use second::one_processor::{verdict, Verdict};
use second::one_row::{one_row, right_side};
use second::program::Program;
use second::refine::{first_bounds, pass};
use second::rows::{Row, Sheet};

/// The slips: what a wrong program does, and the part that is exchanged.
pub const SLIPS: [Slip; 7] = [
    ("jumps one value too far in a long climb", |program| {
        program.rta = jumping_too_far
    }),
    ("gives up a climb after a thousand steps", |program| {
        program.rta = thousand_steps
    }),
    ("goes one move too far along a ray", |program| {
        program.refined = one_move_too_far
    }),
    ("moves along a ray without a check", |program| {
        program.refined = unchecked
    }),
    ("takes the bounds behind a ray as final", |program| {
        program.refined = unconfirmed
    }),
    ("steps backward one too far", |program| {
        program.verdict = backward_too_far
    }),
    ("names the greatest miss", |program| {
        program.verdict = greatest_miss
    }),
];

/// The climb from the cost, value by value that the right side gives, to where it stays; some steps are long.
fn climbed(
    row: Row,
    right_side: impl Fn(u64) -> u64,
    next: impl Fn(u64, u64) -> u64,
) -> Option<u64> {
    let mut tried = row.cost;
    while tried <= row.deadline {
        let right = right_side(tried);
        if right <= tried {
            return Some(tried);
        }
        tried = next(tried, right);
    }
    None
}

/// RTA by a climb: no slip in itself, and quick where trying every value takes long.
pub fn climbing(program: &Program, sheet: &Sheet, asked: usize, bounds: &[u64]) -> Option<u64> {
    let right_side = right_side(program, sheet, asked, bounds);
    climbed(sheet.rows[asked], right_side, |_, right| right)
}

/// A climb that goes one value past the right side where the climb has come far.
fn jumping_too_far(program: &Program, sheet: &Sheet, asked: usize, bounds: &[u64]) -> Option<u64> {
    let row = sheet.rows[asked];
    let far = |tried: u64, right: u64| right + (tried > row.cost + 64) as u64;
    climbed(row, right_side(program, sheet, asked, bounds), far)
}

/// A climb that takes the deadline for out of reach after a thousand steps.
fn thousand_steps(program: &Program, sheet: &Sheet, asked: usize, bounds: &[u64]) -> Option<u64> {
    let row = sheet.rows[asked];
    let right_side = right_side(program, sheet, asked, bounds);
    let mut tried = row.cost;
    for _ in 0..1_000 {
        let right = right_side(tried);
        if right == tried {
            return Some(tried);
        }
        if right > row.deadline {
            return None;
        }
        tried = right;
    }
    None
}

/// Bounds lowered by drops, where none passes its cost.
fn lowered(sheet: &Sheet, bounds: &[u64], drops: &[u64]) -> Option<Vec<u64>> {
    let one = |((row, &bound), &drop): ((&Row, &u64), &u64)| {
        bound.checked_sub(drop).filter(|&low| low >= row.cost)
    };
    sheet.rows.iter().zip(bounds).zip(drops).map(one).collect()
}

/// Whether every row's answer is at most its lowered bound, rows 0 upward, with each lowered bound used at once.
fn move_allowed(
    program: &Program,
    sheet: &Sheet,
    method: u32,
    bounds: &[u64],
    low: &[u64],
) -> bool {
    let mut bounds = bounds.to_vec();
    (0..low.len()).all(|place| {
        let answer = one_row(program, sheet, method, place, &bounds);
        let allowed =
            low[place] == bounds[place] || answer.is_some_and(|answer| answer <= low[place]);
        bounds[place] = low[place];
        allowed
    })
}

/// How a ray of drops moves bounds on.
type Ray = fn(&Program, &Sheet, u32, &[u64], &[u64]) -> Vec<u64>;

/// Moves along a ray as often as the checks allow.
fn along(program: &Program, sheet: &Sheet, method: u32, bounds: &[u64], drops: &[u64]) -> Vec<u64> {
    let mut bounds = bounds.to_vec();
    while let Some(low) = lowered(sheet, &bounds, drops) {
        if !move_allowed(program, sheet, method, &bounds, &low) {
            break;
        }
        bounds = low;
    }
    bounds
}

/// Moves along a ray once more than the checks allow.
fn too_far(
    program: &Program,
    sheet: &Sheet,
    method: u32,
    bounds: &[u64],
    drops: &[u64],
) -> Vec<u64> {
    let bounds = along(program, sheet, method, bounds, drops);
    lowered(sheet, &bounds, drops).unwrap_or(bounds)
}

/// Moves along a ray as far as the costs allow.
fn to_the_costs(
    _program: &Program,
    sheet: &Sheet,
    _method: u32,
    bounds: &[u64],
    drops: &[u64],
) -> Vec<u64> {
    let mut bounds = bounds.to_vec();
    while let Some(low) = lowered(sheet, &bounds, drops) {
        bounds = low;
    }
    bounds
}

/// Passes with a ray after every fourth, until one changes nothing; the bounds, and whether the last ray was the end.
fn with_rays(program: &Program, sheet: &Sheet, method: u32, ray: Ray, ends: bool) -> Vec<u64> {
    let mut bounds = first_bounds(&sheet.rows);
    let order: Vec<usize> = (0..bounds.len()).collect();
    let most: u64 = sheet.rows.iter().map(|row| row.deadline - row.cost).sum();
    for number in 1..=most + 1 {
        let before = bounds.clone();
        if !pass(program, sheet, method, &order, &mut bounds) {
            break;
        }
        let drops: Vec<u64> = before
            .iter()
            .zip(&bounds)
            .map(|(old, new)| old.saturating_sub(*new))
            .collect();
        if number % 4 == 0 && drops.iter().any(|&drop| drop > 0) {
            bounds = ray(program, sheet, method, &bounds, &drops);
            if ends {
                break;
            }
        }
    }
    bounds
}

/// Passes with rays that go one move too far.
fn one_move_too_far(program: &Program, sheet: &Sheet, method: u32) -> Vec<u64> {
    with_rays(program, sheet, method, too_far, false)
}

/// Passes with rays that nothing holds but the costs.
fn unchecked(program: &Program, sheet: &Sheet, method: u32) -> Vec<u64> {
    with_rays(program, sheet, method, to_the_costs, false)
}

/// Passes up to the first ray, and no pass behind it.
fn unconfirmed(program: &Program, sheet: &Sheet, method: u32) -> Vec<u64> {
    with_rays(program, sheet, method, along, true)
}

/// The rows' demand in a length.
fn demand(program: &Program, rows: &[Row], length: u64) -> u64 {
    rows.iter().map(|&row| (program.demand)(row, length)).sum()
}

/// No miss where steps backward from the horizon meet none, each to one length before the one that is next.
fn backward_too_far(program: &Program, rows: &[Row], horizon: u64) -> Verdict {
    let right = verdict(program, rows, horizon);
    let mut length = horizon;
    while length > 0 {
        let demand = demand(program, rows, length);
        if demand > length {
            return right;
        }
        length = demand.saturating_sub(2);
    }
    match right {
        Verdict::Miss(_) => Verdict::Undecided,
        other => other,
    }
}

/// The greatest length up to the horizon that misses.
fn greatest_miss(program: &Program, rows: &[Row], horizon: u64) -> Verdict {
    match verdict(program, rows, horizon) {
        Verdict::Miss(least) => {
            let last = horizon.min(least + 1_000);
            let misses = |&length: &u64| demand(program, rows, length) > length;
            Verdict::Miss((least..=last).rev().find(misses).unwrap_or(least))
        }
        other => other,
    }
}
