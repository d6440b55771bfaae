//! Who is on trial: the proved program, or a wrong second program in its place.

use crate::difference::due_contents;
use guarded::{made, Seen};
use second::answers::answer;
use second::call::{Call, Entry};
use second::program::{Program, DOCUMENT};
use second::random::Random;

/// The program on trial.
#[derive(Clone, Copy)]
pub enum Trial<'a> {
    /// The proved program: its answers are held against the second program's, and against each other.
    Proved,
    /// A wrong second program: its answers are held against the proved program's, and against each other.
    Wrong(&'a Program),
}

impl Trial<'_> {
    /// The second program that answers of the proved one are held against.
    pub fn second(&self) -> &Program {
        match self {
            Trial::Proved => &DOCUMENT,
            Trial::Wrong(program) => program,
        }
    }

    /// What the program on trial does with a call.
    pub fn made(&self, call: &Call, random: &mut Random) -> Seen {
        match self {
            Trial::Proved => made(call, random),
            Trial::Wrong(program) => as_if_made(program, call),
        }
    }
}

/// How many elements of an output are looked at; no answer is longer.
pub const LOOKED_AT: usize = 8_192;

/// How many elements of all outputs of a call are looked at.
fn looked_at(call: &Call) -> usize {
    match call.entry {
        Entry::Pieces => call.rooms().iter().map(|room| room.min(&LOOKED_AT)).sum(),
        _ => call.room.min(LOOKED_AT),
    }
}

/// What a second program does with a call, as if its output had been lent.
fn as_if_made(program: &Program, call: &Call) -> Seen {
    let answer = answer(program, call);
    let before = vec![0; looked_at(call)];
    Seen {
        after: due_contents(call, &before, &answer),
        numbers: answer.numbers,
        before,
        inputs_kept: true,
        guards_kept: true,
    }
}
