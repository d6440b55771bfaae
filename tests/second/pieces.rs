//! A sheet that comes in pieces: all bytes are kept, and the state is worked out of the whole of them afterwards. Those that came from the
//! start on are read as a text by its lines. Behind a state that a caller made up they are held against the layout of the sheet that is
//! announced, and each number takes in all of its digits at once.

use crate::call::{Answer, Call, Entry, Step};
use crate::checks::{refusal, Refusal};
use crate::program::Program;
use crate::state::State;

/// What has come of a sheet: the state that it goes on from, none where that is the start, and all bytes since.
#[derive(Clone, Debug, Default)]
pub struct Came {
    pub from: Option<State>,
    pub bytes: Vec<u8>,
}

impl From<State> for Came {
    /// Goes on from a state.
    fn from(state: State) -> Came {
        Came {
            from: Some(state),
            bytes: Vec::new(),
        }
    }
}

/// A part of a sheet that came and fits: its bytes, from an offset on.
pub struct Part<'a> {
    pub offset: usize,
    pub bytes: &'a [u8],
}

impl Part<'_> {
    /// The digits of the part among so many of a number that begins at an offset.
    pub fn digits(&self, program: &Program, start: usize, width: usize) -> Vec<u32> {
        let from = start.max(self.offset) - self.offset;
        let to = (start + width).saturating_sub(self.offset);
        let within = self.bytes.get(from..to.min(self.bytes.len()));
        let digit = |&byte: &u8| (program.digit)(byte).unwrap_or(0);
        within.unwrap_or(&[]).iter().map(digit).collect()
    }
}

/// The offset of a word's first digit.
pub fn word_start(word: usize) -> usize {
    7 + 21 * (word / 3) + 2 + 6 * (word % 3)
}

/// A number with digits put behind it, all at once: the lowest 31 bits of what that gives. Without digits it stays as it is.
pub fn with_digits(number: u32, digits: &[u32]) -> u32 {
    if digits.is_empty() {
        return number;
    }
    let places = (0..digits.len() as u32).rev();
    let values = digits
        .iter()
        .zip(places)
        .map(|(&digit, place)| digit as u64 * 16u64.pow(place));
    let front = number as u64 * 16u64.pow(digits.len() as u32);
    ((front + values.sum::<u64>()) % (1 << 31)) as u32
}

/// The rows that a number announces: its two lowest digits.
pub fn announced(rows: u32) -> usize {
    rows as usize % 256
}

/// What each byte of a sheet of so many rows has to be: itself, or a digit where # stands.
pub fn layout(rows: usize) -> Vec<u8> {
    [b"01####\n".to_vec(), b"02##################\n".repeat(rows)].concat()
}

/// How many bytes fit what a layout has from an offset on.
fn fitting(program: &Program, layout: &[u8], offset: usize, bytes: &[u8]) -> usize {
    let due = layout.get(offset..).unwrap_or(&[]);
    let fits = |(&due, &byte): &(&u8, &u8)| match due {
        b'#' => (program.digit)(byte).is_some(),
        _ => byte == due,
    };
    due.iter().zip(bytes).take_while(fits).count()
}

/// The state with the numbers that a part has digits of, and its bytes counted.
fn with_part(program: &Program, state: &State, part: &Part) -> State {
    let with = |number: u32, start: usize, width: usize| {
        (program.with_digits)(number, &part.digits(program, start, width))
    };
    let words = state.words.iter().enumerate();
    State {
        taken: state.taken + part.bytes.len() as u32,
        processors: with(state.processors, 2, 2),
        rows: with(state.rows, 4, 2),
        words: words
            .map(|(place, &word)| with(word, word_start(place), 6))
            .collect(),
        ..state.clone()
    }
}

/// The state behind a text from the start on: it is right up to the place that its reader names, or to its end.
pub fn state_of_text(program: &Program, text: &[u8]) -> State {
    let right = (program.read)(program, text)
        .err()
        .unwrap_or(text.len())
        .min(text.len());
    let part = Part {
        offset: 0,
        bytes: &text[..right],
    };
    State {
        wrong: (right < text.len()) as u32,
        ..with_part(program, &State::of(&[]), &part)
    }
}

/// The state behind some bytes that come upon any state: they are right as far as they fit the rest of line one, and then the lines of
/// the rows that it announces.
pub fn state_behind(program: &Program, state: &State, bytes: &[u8]) -> State {
    if state.ended != 0 || state.wrong != 0 {
        return state.clone();
    }
    let offset = state.taken as usize;
    let part = |rows: usize| {
        let right = fitting(program, &layout(rows), offset, bytes);
        let bytes = &bytes[..right];
        Part { offset, bytes }
    };
    let in_line_one = with_part(program, state, &part(0));
    let right = part((program.announced)(in_line_one.rows));
    State {
        wrong: (right.bytes.len() < bytes.len()) as u32,
        ..with_part(program, state, &right)
    }
}

/// The state that what has come makes.
pub fn state_of(program: &Program, came: &Came) -> State {
    match &came.from {
        None => state_of_text(program, &came.bytes),
        Some(state) => state_behind(program, state, &came.bytes),
    }
}

/// What has come with a piece more.
pub fn fed(_program: &Program, came: &Came, piece: &[u8]) -> Came {
    let bytes = [&came.bytes, piece].concat();
    Came {
        bytes,
        ..came.clone()
    }
}

/// The rows and processors of a state that is whole, as if they were lent, or its refusal.
fn whole(program: &Program, state: &State, room: usize) -> Result<Call, Refusal> {
    let rows = (program.announced)(state.rows);
    if state.wrong != 0 || state.taken as usize != layout(rows).len() {
        return Err(Refusal {
            number: 1,
            place: state.taken,
        });
    }
    let mut lent = Call {
        words: state.words.clone(),
        processors: state.processors,
        room,
        ..Call::of(Entry::Pieces)
    };
    lent.words.resize(3 * rows, 0);
    match refusal(program, &lent) {
        Some(found) => Err(found),
        None => Ok(lent),
    }
}

/// The end of a sheet: the state behind it, and the words that it writes. A second end changes nothing.
pub fn ended(program: &Program, state: &State, room: usize) -> (State, Vec<u32>) {
    if state.ended != 0 {
        return (state.clone(), Vec::new());
    }
    let (answer, words) = match whole(program, state, room) {
        Ok(lent) => {
            let rows = lent.words.len() as u32 / 3;
            (vec![0, 0, lent.processors, rows], lent.words)
        }
        Err(found) => {
            let told = (program.refused)(Entry::Pieces, found);
            let numbers = told.numbers.iter().map(|&number| number as u32);
            (numbers.collect(), told.words)
        }
    };
    let state = State {
        ended: 1,
        answer,
        ..state.clone()
    };
    (state, words)
}

/// The numbers of the state that what has come makes, as a call returns them.
fn numbers_of(program: &Program, came: &Came) -> Vec<u64> {
    let state = (program.state_of)(program, came);
    state.numbers().into_iter().map(u64::from).collect()
}

/// A sheet in pieces: the state that it goes on from, that behind each step, and what each end writes. Of bytes 0 lent behind the last
/// piece the first is wrong, or changes nothing.
pub fn in_pieces(program: &Program, call: &Call) -> Answer {
    let from = (!call.state.is_empty()).then(|| State::of(&call.state));
    let mut came = Came {
        from,
        bytes: Vec::new(),
    };
    let mut answer = Answer {
        numbers: numbers_of(program, &came),
        ..Answer::default()
    };
    for (place, (step, piece)) in call.pieces().into_iter().enumerate() {
        if let Step::End(room) = step {
            let (state, words) =
                (program.ended)(program, &(program.state_of)(program, &came), room);
            came = state.into();
            answer.at_ends.push(words);
        } else {
            let is_longer = call.behind.text > 0 && call.last_piece() == Some(place);
            let behind: &[u8] = if is_longer { &[0] } else { &[] };
            came = (program.fed)(program, &came, &[piece, behind].concat());
        }
        answer.numbers.extend(numbers_of(program, &came));
    }
    answer
}
