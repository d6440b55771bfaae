//! Sheets that come in pieces: how their texts are cut, where they end, and what comes behind the end.

use crate::damage::damage;
use crate::made_up::made_up;
use crate::spoil::spoiled;
use second::call::{Call, Step};
use second::random::Random;

/// The lengths of pieces: a few bytes; lines, and what begins or ends beside them; as much as there is.
const LENGTHS: [&[usize]; 3] = [
    &[0, 1, 1, 1, 2, 3, 5],
    &[0, 6, 7, 8, 20, 21, 22, 42],
    &[0, 100, 500, 4_096],
];

/// How many pieces a long text is cut into at most; and how long a text may be that is cut byte by byte.
const MOST_PIECES: usize = 12;
const BYTE_BY_BYTE: usize = 80;

/// A cut of so many bytes into pieces, some of them empty: at times all at once, or byte by byte where they are few; else many small
/// pieces or few large ones, every other time from some place on.
pub fn cut(length: usize, random: &mut Random) -> Vec<Step> {
    match random.below(16) {
        0 => return vec![Step::Piece(length)],
        1 if length <= BYTE_BY_BYTE => return vec![Step::Piece(1); length],
        _ => (),
    }
    let lengths = random.one_of(&LENGTHS);
    let mut left = length;
    let mut steps = Vec::new();
    if random.once_in(2) {
        let front = random.below(length + 1);
        steps.push(Step::Piece(front));
        left -= front;
    }
    while left > 0 && steps.len() < MOST_PIECES {
        let piece = random.one_of(lengths).min(left);
        steps.push(Step::Piece(piece));
        left -= piece;
    }
    steps.push(Step::Piece(left));
    steps
}

/// A room for the words of a sheet: the one given, one less, one more, none, or as much as any sheet takes.
fn some_room(room: usize, random: &mut Random) -> usize {
    random.one_of(&[room, room, room.saturating_sub(1), room + 1, 0, 192, 765])
}

/// Bytes that come behind the end: none, a few, a sheet, or what is left of one.
fn bytes_behind(text: &[u8], random: &mut Random) -> Vec<u8> {
    let from = random.below(text.len() + 1);
    match random.below(4) {
        0 => Vec::new(),
        1 => b"01".to_vec(),
        2 => text.to_vec(),
        _ => text[from..].to_vec(),
    }
}

/// Pieces behind the end, and one end more or two.
fn behind_the_end(call: &mut Call, random: &mut Random) {
    let bytes = bytes_behind(&call.text, random);
    let last_room = some_room(call.room, random);
    call.text.extend(&bytes);
    if random.once_in(2) {
        call.steps.push(Step::End(some_room(call.room, random)));
    }
    call.steps.extend(cut(bytes.len(), random));
    call.steps.push(Step::End(last_room));
}

/// The steps of a call that is right: its text in pieces, and then the end; at times more behind it, or no end.
fn right_steps(call: &mut Call, random: &mut Random) {
    call.steps = cut(call.text.len(), random);
    if random.once_in(16) {
        return;
    }
    call.steps.push(Step::End(call.room));
    if random.once_in(3) {
        behind_the_end(call, random);
    }
}

/// Changes the steps of a call: another room at its end and more behind it, an end too early, an empty piece, a step left out, or none.
fn spoil_steps(call: &mut Call, random: &mut Random) {
    let place = random.below(call.steps.len() + 1);
    match random.below(6) {
        0 => {
            let is_end = |step: &&mut Step| matches!(step, Step::End(_));
            let room = random.one_of(&[0, call.room.saturating_sub(1), call.room / 2]);
            let end = call.steps.iter_mut().find(is_end);
            end.into_iter().for_each(|step| *step = Step::End(room));
            call.steps.extend([call.room, 192].map(Step::End));
        }
        1 => call.steps.insert(place, Step::End(call.room)),
        2 => call.steps.insert(place, Step::Piece(0)),
        3 if place < call.steps.len() => drop(call.steps.remove(place)),
        _ => (),
    }
}

/// The call with something wrong in it: its text, the state that it goes on from, or both.
fn spoiled_or_made_up(call: Call, random: &mut Random) -> Call {
    let choice = random.below(5);
    let mut call = if choice < 3 {
        spoiled(call, random)
    } else {
        call
    };
    if choice > 1 {
        made_up(&mut call, random);
    }
    if choice == 4 && random.once_in(4) {
        call.text = damage(&call.text, random);
    }
    call
}

/// The call in steps: its text cut, and its ends; where it is to be wrong, with another text or from a state that is made up, and at times
/// with its steps out of order.
pub fn in_steps(call: Call, wrong: bool, random: &mut Random) -> Call {
    let mut call = if wrong {
        spoiled_or_made_up(call, random)
    } else {
        call
    };
    right_steps(&mut call, random);
    if wrong {
        spoil_steps(&mut call, random);
    }
    call
}
