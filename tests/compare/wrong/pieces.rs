//! Slips in taking a sheet in pieces: in the state behind a piece, in its end, and with states that a caller made up.

use super::Slip;
use second::call::Call;
use second::pieces::{
    announced, ended, fed, layout, state_behind, state_of, with_digits, word_start, Came, Part,
};
use second::program::Program;
use second::state::{State, WORDS};

/// The slips in taking a piece: what a wrong program does, and the part that is exchanged.
pub const TAKING: [Slip; 13] = [
    COUNTS_FROM_THE_PIECE,
    FORGETS_A_WRONG_BYTE,
    NUMBERS_BEGIN_ANEW,
    NO_SECOND_PIECE,
    COUNTS_PIECES,
    TAKES_PIECES_BEHIND_THE_END,
    ("counts the bytes behind a wrong one", |program| {
        program.fed = all_counted
    }),
    (
        "counts the bytes behind the last line as right",
        |program| program.fed = longer_taken,
    ),
    ("counts a wrong byte as right", |program| {
        program.fed = wrong_counted
    }),
    ("takes an empty piece for the end", |program| {
        program.fed = empty_ends
    }),
    ("refuses 65 rows behind line one", |program| {
        program.fed = many_rows_early
    }),
    ("tells the rows only when line one is whole", |program| {
        program.state_of = rows_late
    }),
    ("counts the rows by their first digit alone", |program| {
        program.state_of = rows_early
    }),
];

/// The slips at the end.
pub const ENDING: [Slip; 7] = [
    WRITES_AT_A_SECOND_END,
    ANSWERS_ANEW,
    ("writes the words of a sheet that it refuses", |program| {
        program.ended = refused_words
    }),
    ("keeps no answer", |program| program.ended = answer_dropped),
    ("clears the words behind the end", |program| {
        program.ended = words_cleared
    }),
    (
        "names the announced length where a sheet ends early",
        |program| program.ended = announced_named,
    ),
    ("tells an end by 2", |program| {
        program.ended = |program, state, room| {
            let (behind, words) = ended(program, state, room);
            let ended = behind.ended + (state.ended == 0) as u32;
            (State { ended, ..behind }, words)
        }
    }),
];

/// The slips with states that no run reaches, and with sheets that no reader accepts.
pub const MADE_UP: [Slip; 11] = [
    DROPS_A_BEGUN_NUMBER,
    ("has words behind the last go round", |program| {
        program.state_of = words_wrapped
    }),
    ("announces rows above 255", |program| {
        program.announced = |rows| rows.min(4_096) as usize
    }),
    ("announces rows in six bits", |program| {
        program.announced = |rows| rows as usize % 64
    }),
    ("sees one bit of a wrong byte", |program| {
        program.fed =
            |program, came, piece| seen_first(program, came, piece, |state| state.wrong &= 1)
    }),
    ("sees one bit of the end", |program| {
        program.fed =
            |program, came, piece| seen_first(program, came, piece, |state| state.ended &= 1)
    }),
    ("sees one bit of a wrong byte at the end", |program| {
        program.ended = wrong_unseen
    }),
    ("keeps the right bytes in 16 bits", |program| {
        program.fed =
            |program, came, piece| seen_first(program, came, piece, |state| state.taken &= 0xFFFF)
    }),
    ("keeps numbers in 32 bits", |program| {
        program.with_digits = digits_in::<32>
    }),
    ("keeps numbers in 24 bits", |program| {
        program.with_digits = digits_in::<24>
    }),
    ("clears a state with nothing taken", |program| {
        program.fed = cleared_at_first
    }),
];

/// The slip in lengths.
pub const LENGTH: Slip = ("keeps a piece's length in 16 bits", |program| {
    program.taken = piece_length
});

/// The slips by the relations that are to show them.
pub const BY_RELATION: [(&str, Slip); 9] = [
    (
        "a sheet in pieces is read as its whole text",
        COUNTS_FROM_THE_PIECE,
    ),
    (
        "a sheet in pieces is read as its whole text",
        NO_SECOND_PIECE,
    ),
    ("the cut changes no state", FORGETS_A_WRONG_BYTE),
    ("the cut changes no state", NUMBERS_BEGIN_ANEW),
    ("the cut changes no state", COUNTS_PIECES),
    (
        "a state handed on goes on as the run does",
        DROPS_A_BEGUN_NUMBER,
    ),
    ("behind the end nothing changes", WRITES_AT_A_SECOND_END),
    ("behind the end nothing changes", ANSWERS_ANEW),
    (
        "behind the end nothing changes",
        TAKES_PIECES_BEHIND_THE_END,
    ),
];

/// A wrong byte is told by its place in its piece.
const COUNTS_FROM_THE_PIECE: Slip = ("counts a wrong byte's place from its piece", |program| {
    program.fed = counted_from_piece
});

/// Whether a byte was wrong is kept for one piece only.
const FORGETS_A_WRONG_BYTE: Slip = ("forgets a wrong byte at the next piece", |program| {
    program.fed = |program, came, piece| seen_first(program, came, piece, |state| state.wrong = 0)
});

/// The digits of a number that came before a piece are lost.
const NUMBERS_BEGIN_ANEW: Slip = ("begins a number anew with each piece", |program| {
    program.fed = |program, came, piece| seen_first(program, came, piece, number_cleared)
});

/// Whatever comes behind the first bytes is dropped.
const NO_SECOND_PIECE: Slip = ("takes no piece behind the first", |program| {
    program.fed = first_only
});

/// The state tells how many pieces came.
const COUNTS_PIECES: Slip = ("counts the pieces behind a wrong byte", |program| {
    program.fed = pieces_counted
});

/// The end holds for the answer only.
const TAKES_PIECES_BEHIND_THE_END: Slip = ("takes pieces behind the end", |program| {
    program.fed = taken_behind_end
});

/// The end writes whenever it is told.
const WRITES_AT_A_SECOND_END: Slip = ("writes at a second end too", |program| {
    program.ended = written_again
});

/// A refusal for too little room is not the last word.
const ANSWERS_ANEW: Slip = ("answers a second end that lends more room", |program| {
    program.ended = answered_anew
});

/// The state that is handed on is not all that is kept.
const DROPS_A_BEGUN_NUMBER: Slip = ("drops what a number had before a piece", |program| {
    program.with_digits = |number, digits| match digits {
        [] => number,
        _ => with_digits(0, digits),
    }
});

/// The states before and behind a piece, and how many bytes of it are right.
fn around(program: &Program, came: &Came, piece: &[u8]) -> (State, State, u32) {
    let before = state_of(program, came);
    let behind = state_of(program, &fed(program, came, piece));
    let right = behind.taken.wrapping_sub(before.taken);
    (before, behind, right)
}

/// A piece taken upon the state that is seen for the one there is.
fn seen_first(program: &Program, came: &Came, piece: &[u8], see: fn(&mut State)) -> Came {
    let mut state = state_of(program, came);
    see(&mut state);
    state_behind(program, &state, piece).into()
}

/// A wrong byte told by its place in its piece.
fn counted_from_piece(program: &Program, came: &Came, piece: &[u8]) -> Came {
    let (before, mut behind, right) = around(program, came, piece);
    if behind.wrong != before.wrong {
        behind.taken = right;
    }
    behind.into()
}

/// Clears the number that has begun and is not whole.
fn number_cleared(state: &mut State) {
    let taken = state.taken as usize;
    let is_begun = |start: usize, width: usize| start < taken && taken < start + width;
    if state.ended != 0 || state.wrong != 0 {
        return;
    }
    if is_begun(2, 2) {
        state.processors = 0;
    }
    if is_begun(4, 2) {
        state.rows = 0;
    }
    let words = state.words.iter_mut().enumerate();
    for (_, word) in words.filter(|(place, _)| is_begun(word_start(*place), 6)) {
        *word = 0;
    }
}

/// Only the first piece taken.
fn first_only(program: &Program, came: &Came, piece: &[u8]) -> Came {
    if state_of(program, came).taken > 0 {
        return came.clone();
    }
    fed(program, came, piece)
}

/// Pieces behind a wrong byte counted where that is told.
fn pieces_counted(program: &Program, came: &Came, piece: &[u8]) -> Came {
    let (before, mut behind, _) = around(program, came, piece);
    if before.wrong != 0 && before.ended == 0 {
        behind.wrong = before.wrong.wrapping_add(1);
    }
    behind.into()
}

/// A piece taken although the sheet has ended.
fn taken_behind_end(program: &Program, came: &Came, piece: &[u8]) -> Came {
    let state = state_of(program, came);
    let open = State {
        ended: 0,
        ..state.clone()
    };
    let behind = state_behind(program, &open, piece);
    let ended = state.ended;
    State { ended, ..behind }.into()
}

/// All bytes counted, the wrong one and those behind it too.
fn all_counted(program: &Program, came: &Came, piece: &[u8]) -> Came {
    let (before, mut behind, _) = around(program, came, piece);
    if behind.wrong != 0 && before.ended == 0 {
        behind.taken = before.taken.wrapping_add(piece.len() as u32);
    }
    behind.into()
}

/// Bytes behind the last line counted, and none of them wrong.
fn longer_taken(program: &Program, came: &Came, piece: &[u8]) -> Came {
    let (before, mut behind, _) = around(program, came, piece);
    let whole = layout(announced(behind.rows)).len() as u32;
    if behind.wrong != before.wrong && behind.taken >= whole {
        behind.taken = before.taken.wrapping_add(piece.len() as u32);
        behind.wrong = 0;
    }
    behind.into()
}

/// The wrong byte counted.
fn wrong_counted(program: &Program, came: &Came, piece: &[u8]) -> Came {
    let (before, mut behind, _) = around(program, came, piece);
    behind.taken = behind.taken.wrapping_add(behind.wrong - before.wrong);
    behind.into()
}

/// The sheet ended by an empty piece.
fn empty_ends(program: &Program, came: &Came, piece: &[u8]) -> Came {
    if piece.is_empty() {
        return ended(program, &state_of(program, came), WORDS).0.into();
    }
    fed(program, came, piece)
}

/// Line one told to be wrong where it announces more than 64 rows.
fn many_rows_early(program: &Program, came: &Came, piece: &[u8]) -> Came {
    let (before, behind, _) = around(program, came, piece);
    if before.taken < 7 && behind.taken >= 7 && announced(behind.rows) > 64 {
        let line_one = State {
            taken: 7,
            wrong: 1,
            ..behind
        };
        return line_one.into();
    }
    behind.into()
}

/// The state with no rows before line one is whole.
fn rows_late(program: &Program, came: &Came) -> State {
    let mut state = state_of(program, came);
    if state.taken < 7 {
        state.rows = 0;
    }
    state
}

/// The state with the first digit of the rows worth sixteen times as much before the second has come.
fn rows_early(program: &Program, came: &Came) -> State {
    let mut state = state_of(program, came);
    if state.taken == 5 {
        state.rows = with_digits(state.rows, &[0]);
    }
    state
}

/// The words behind the 192nd put to the front again.
fn words_wrapped(program: &Program, came: &Came) -> State {
    let mut state = state_of(program, came);
    let offset = came.from.as_ref().map_or(0, |state| state.taken);
    let right = state.taken.wrapping_sub(offset) as usize;
    let part = Part {
        offset: offset as usize,
        bytes: &came.bytes[..right],
    };
    for word in WORDS..3 * 255 {
        let digits = part.digits(program, word_start(word), 6);
        state.words[word % WORDS] = with_digits(state.words[word % WORDS], &digits);
    }
    state
}

/// Digits put behind a number of so many bits.
fn digits_in<const BITS: u32>(number: u32, digits: &[u32]) -> u32 {
    let behind = |number: u64, &digit: &u32| (number * 16 + digit as u64) % (1 << BITS);
    digits.iter().fold(number as u64, behind) as u32
}

/// A piece taken upon no numbers where nothing was taken yet.
fn cleared_at_first(program: &Program, came: &Came, piece: &[u8]) -> Came {
    let state = state_of(program, came);
    if state.taken == 0 && state.wrong == 0 && state.ended == 0 && !piece.is_empty() {
        return state_behind(program, &State::of(&[]), piece).into();
    }
    fed(program, came, piece)
}

/// The words of a state's rows, as far as there are words.
fn words_told(state: &State) -> Vec<u32> {
    let count = WORDS.min(3 * announced(state.rows));
    state.words[..count].to_vec()
}

/// The end, which writes the words once more where there was one before.
fn written_again(program: &Program, state: &State, room: usize) -> (State, Vec<u32>) {
    if state.ended != 0 && state.answer[0] == 0 {
        return (state.clone(), words_told(state));
    }
    ended(program, state, room)
}

/// The end, which is told anew where there was too little room before.
fn answered_anew(program: &Program, state: &State, room: usize) -> (State, Vec<u32>) {
    let mut open = state.clone();
    if state.answer[0] == 7 {
        open.ended = 0;
    }
    ended(program, &open, room)
}

/// The end, which writes the words of a sheet that it refuses.
fn refused_words(program: &Program, state: &State, room: usize) -> (State, Vec<u32>) {
    let (behind, words) = ended(program, state, room);
    if state.ended == 0 && behind.answer[0] == 8 {
        return (behind, words_told(state));
    }
    (behind, words)
}

/// The end with no answer in the state.
fn answer_dropped(program: &Program, state: &State, room: usize) -> (State, Vec<u32>) {
    let (behind, words) = ended(program, state, room);
    let answer = state.answer.clone();
    (State { answer, ..behind }, words)
}

/// The end with no words left in the state.
fn words_cleared(program: &Program, state: &State, room: usize) -> (State, Vec<u32>) {
    let (behind, written) = ended(program, state, room);
    let words = vec![0; WORDS];
    (State { words, ..behind }, written)
}

/// The end of a sheet that ends early, told by the length that it should have.
fn announced_named(program: &Program, state: &State, room: usize) -> (State, Vec<u32>) {
    let (mut behind, words) = ended(program, state, room);
    if state.ended == 0 && state.wrong == 0 && behind.answer[0] == 1 {
        behind.answer[1] = layout(announced(state.rows)).len() as u32;
    }
    (behind, words)
}

/// The end of a sheet whose wrong byte is seen in the lowest bit only.
fn wrong_unseen(program: &Program, state: &State, room: usize) -> (State, Vec<u32>) {
    let mut seen = state.clone();
    seen.wrong &= 1;
    let (behind, words) = ended(program, &seen, room);
    let wrong = state.wrong;
    (State { wrong, ..behind }, words)
}

/// The call with what is lent behind its last piece cut.
fn piece_length(call: &Call) -> Call {
    let mut taken = call.clone();
    taken.behind.text &= 0xFFFF;
    taken
}
