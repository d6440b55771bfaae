//! Sheets that come in pieces: every step of a run with all its memory between guards.

use crate::exported::*;
use crate::lent::Lent;
use crate::seen::Seen;
use second::call::{Call, Step};
use second::random::Random;
use second::state::NUMBERS;

/// A run: the state behind the last step, and what was seen so far.
struct Run {
    state: Pieces,
    seen: Seen,
}

/// The state that a call goes on from: that of the start, or the one it gives.
fn first_state(call: &Call) -> Pieces {
    if call.state.is_empty() {
        // SAFETY: it is given nothing.
        return unsafe { circuitrail_pieces_start() };
    }
    let mut numbers = [0; NUMBERS];
    numbers.copy_from_slice(&call.state);
    Pieces { numbers }
}

impl Run {
    /// Takes the state behind a step, and notes it.
    fn note(&mut self, state: Pieces) {
        self.state = state;
        self.seen.numbers.extend(state.numbers.map(u64::from));
    }

    /// A piece, with so many bytes of 0 behind it.
    fn feed(&mut self, piece: &[u8], behind: usize, random: &mut Random) {
        let mut lent = Lent::new(piece, behind, random);
        let (bytes, length) = lent.pointer_and_length();
        // SAFETY: the pointer is to as many bytes as the length says, and they live past the call.
        let state = unsafe { circuitrail_pieces_feed(self.state, bytes, length) };
        self.note(state);
        self.seen.inputs_kept &= lent.kept();
    }

    /// The end, with so many words of room.
    fn end(&mut self, room: usize, random: &mut Random) {
        let mut out = Lent::room(room, random);
        let (words, length) = out.pointer_and_length();
        // SAFETY: the pointer is to as many words as the length says, and they live past the call.
        let state = unsafe { circuitrail_pieces_end(self.state, words, length) };
        self.note(state);
        self.seen.guards_kept &= out.guards_kept();
        let wide = |words: &[u32]| words.iter().map(|&word| word.into()).collect::<Vec<u64>>();
        self.seen.before.extend(wide(out.old()));
        self.seen.after.extend(wide(out.now()));
    }
}

/// Makes a run: what was seen are the numbers of every state, the first one and that behind each step, and what each end was lent, one
/// behind the other.
pub fn made(call: &Call, random: &mut Random) -> Seen {
    let state = first_state(call);
    let seen = Seen {
        numbers: Vec::new(),
        before: Vec::new(),
        after: Vec::new(),
        inputs_kept: true,
        guards_kept: true,
    };
    let mut run = Run { state, seen };
    run.note(state);
    let last = call.last_piece();
    for (place, (step, piece)) in call.pieces().into_iter().enumerate() {
        match step {
            Step::End(room) => run.end(room, random),
            Step::Piece(_) if last == Some(place) => run.feed(piece, call.behind.text, random),
            Step::Piece(_) => run.feed(piece, 0, random),
        }
    }
    run.seen
}
