//! A call of the proved program held against a program's answer.

use crate::sightings::note;
use crate::trial::LOOKED_AT;
use guarded::{made, Seen};
use second::answers::answer;
use second::call::{Answer, Call, Entry};
use second::program::Program;
use second::random::Random;

/// What two programs gave for one call, and what differs first, if something does.
pub struct Compared {
    pub what: Option<&'static str>,
    pub proved: Seen,
    pub second: Answer,
}

/// Makes a call of the proved program and holds it against what a second program answers.
pub fn compared(program: &Program, call: &Call, random: &mut Random) -> Compared {
    let proved = made(call, random);
    note(call, &proved);
    let second = answer(program, call);
    Compared {
        what: first_difference(call, &proved, &second),
        proved,
        second,
    }
}

/// What the ends of a sheet in pieces are lent, one behind the other, as an answer leaves it: the words of each end at its front.
fn due_at_ends(call: &Call, before: &[u64], second: &Answer) -> Vec<u64> {
    let mut due = before.to_vec();
    let mut start = 0;
    for (room, words) in call.rooms().into_iter().zip(&second.at_ends) {
        let lent = room.min(LOOKED_AT);
        for (place, &word) in words.iter().enumerate().take(lent) {
            due[start + place] = word as u64;
        }
        start += lent;
    }
    due
}

/// The lent output as an answer leaves it: the answer at the front, everything behind it as it was.
pub fn due_contents(call: &Call, before: &[u64], second: &Answer) -> Vec<u64> {
    if call.entry == Entry::Pieces {
        return due_at_ends(call, before, second);
    }
    let words = second.words.iter().map(|&word| word as u64);
    let text = second.text.iter().map(|&byte| byte as u64);
    let front: Vec<u64> = words.chain(text).collect();
    let rest = before.iter().skip(front.len()).copied();
    front.iter().copied().chain(rest).collect()
}

/// What differs first, in the order in which a reader wants to know it.
fn first_difference(call: &Call, proved: &Seen, second: &Answer) -> Option<&'static str> {
    if call.entry == Entry::Pieces && proved.numbers != second.numbers {
        return Some("a state");
    }
    if proved.numbers[0] != second.numbers[0] {
        return Some("the refusal");
    }
    if proved.numbers[1] != second.numbers[1] {
        return Some("the place");
    }
    if proved.numbers != second.numbers {
        return Some("the numbers returned");
    }
    if proved.after != due_contents(call, &proved.before, second) {
        return Some("the contents of the lent output");
    }
    if !proved.guards_kept {
        return Some("memory around the lent output");
    }
    (!proved.inputs_kept).then_some("lent inputs or the memory around them")
}
