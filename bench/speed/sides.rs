//! The sides that answer a question, and a checksum of what they answer.

use crate::cases::{Case, Question};
use crate::{lengths, plain, quick};

/// Who answers.
#[derive(Clone, Copy, PartialEq, Eq, Debug)]
pub enum Side {
    /// The proved program through its C face.
    Proved,
    /// The same method in Rust.
    Rust,
    /// The plain method in Rust.
    Plain,
    /// The length-by-length loop in Rust, for the one-processor test only.
    Lengths,
}

/// A refining entry on slices.
type Refine = fn(&[u32], u32, u32, &mut [u32]) -> u64;

/// Refines a sheet and sums up the answer.
fn refined(refine: Refine, words: &[u32], processors: u32, method: u32) -> u64 {
    let mut bounds = [0u32; 64];
    let rows = words.len() / 3;
    let marks = refine(words, processors, method, &mut bounds[..rows]);
    bounds.iter().fold(marks, |sum, &bound| {
        sum.wrapping_mul(31).wrapping_add(bound as u64)
    })
}

/// The at-once engine of a side.
fn at_once(side: Side) -> Refine {
    match side {
        Side::Proved => guarded::refine_at_once,
        Side::Rust => quick::refine_at_once,
        Side::Plain | Side::Lengths => plain::refine_at_once,
    }
}

/// The rounds engine of a side: its method is the plain one everywhere.
fn rounds(side: Side) -> Refine {
    match side {
        Side::Proved => guarded::refine_rounds,
        Side::Rust | Side::Plain | Side::Lengths => plain::refine_rounds,
    }
}

/// The one-processor test of a side.
fn one_processor(side: Side) -> fn(&[u32], u32) -> (u32, u32) {
    match side {
        Side::Proved => guarded::one_processor,
        Side::Rust => quick::one_processor,
        Side::Plain => plain::one_processor,
        Side::Lengths => lengths::one_processor,
    }
}

/// One question answered by a side.
pub fn answered(question: &Question, side: Side) -> u64 {
    match question {
        Question::AtOnce {
            words,
            processors,
            method,
        } => refined(at_once(side), words, *processors, *method),
        Question::Rounds {
            words,
            processors,
            method,
        } => refined(rounds(side), words, *processors, *method),
        Question::OneProcessor { words, horizon } => {
            let (outcome, length) = one_processor(side)(words, *horizon);
            outcome as u64 * 100_000_000 + length as u64
        }
    }
}

/// A case's questions answered by a side. Instructions are counted while this function runs.
#[no_mangle]
#[inline(never)]
pub fn measured(case: &Case, side: Side) -> u64 {
    let answers = case
        .questions
        .iter()
        .map(|question| answered(question, side));
    answers.fold(0, |sum, answer| sum.wrapping_mul(31).wrapping_add(answer))
}
