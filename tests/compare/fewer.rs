//! Smaller calls of a sheet in pieces: fewer steps, shorter ones, and a state with smaller numbers.

use crate::shrink::lower;
use second::call::{Call, Step};

/// Steps smaller than a step.
fn smaller_steps(step: Step) -> Vec<Step> {
    let lower = |size: usize| lower(size as u32).into_iter().map(|size| size as usize);
    match step {
        Step::Piece(length) => lower(length).map(Step::Piece).collect(),
        Step::End(room) => lower(room).map(Step::End).collect(),
    }
}

/// The call with other steps.
fn with_steps(call: &Call, steps: Vec<Step>) -> Call {
    Call {
        steps,
        ..call.clone()
    }
}

/// The call with one step left out, two pieces made one, or one step smaller.
fn other_steps(call: &Call) -> Vec<Call> {
    let mut calls = Vec::new();
    for place in 0..call.steps.len() {
        let (front, rest) = call.steps.split_at(place);
        calls.push(with_steps(call, [front, &rest[1..]].concat()));
        if let [Step::Piece(one), Step::Piece(other), ..] = rest {
            let both = Step::Piece(one + other);
            calls.push(with_steps(call, [front, &[both], &rest[2..]].concat()));
        }
        for step in smaller_steps(rest[0]) {
            calls.push(with_steps(call, [front, &[step], &rest[1..]].concat()));
        }
    }
    calls
}

/// The call from the start on, or with one number of its state lower.
fn smaller_states(call: &Call) -> Vec<Call> {
    let with = |state: Vec<u32>| Call {
        state,
        ..call.clone()
    };
    let mut calls = vec![with(Vec::new())];
    for place in 0..call.state.len() {
        for number in lower(call.state[place]) {
            let mut state = call.state.clone();
            state[place] = number;
            calls.push(with(state));
        }
    }
    calls
}

/// The call with nothing behind its last piece, with other steps, or from a smaller state.
pub fn fewer_steps(call: &Call) -> Vec<Call> {
    let mut short = call.clone();
    short.behind.text = 0;
    [vec![short], other_steps(call), smaller_states(call)].concat()
}
