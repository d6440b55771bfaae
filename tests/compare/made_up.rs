//! States that a caller makes up: those that a run reaches, the same with some numbers changed, and numbers that follow no rule.

use crate::spoil::any_place;
use second::call::Call;
use second::pieces::{announced, layout, state_of_text};
use second::program::DOCUMENT;
use second::random::Random;
use second::state::{State, NUMBERS, WORDS};

/// Numbers of rows at every limit, of the sheet, of two digits and of a word.
const ROWS: [u32; 14] = [
    0,
    1,
    2,
    63,
    64,
    65,
    66,
    255,
    256,
    257,
    320,
    1 << 27,
    1 << 31,
    u32::MAX,
];

/// A way to change a state.
type Change = fn(&mut State, &mut Random);

/// Every way; some stand twice to come more often.
const CHANGES: [Change; 12] = [
    taken, taken, taken, rows, rows, rows_above, wrong, ended, processors, word, word, answer,
];

/// A number at random, or one near a limit of its bits.
fn any_number(random: &mut Random) -> u32 {
    let bits = random.bits() as u32;
    let power = 1 << random.within(20, 31);
    random.one_of(&[bits, power, power - 1, power + 1, u32::MAX, bits >> 24])
}

/// Another count of right bytes: at the limits of lines and sheets, of the words that are kept and of the number itself, or anywhere
/// in the sheet that is announced.
fn taken(state: &mut State, random: &mut Random) {
    let end = layout(announced(state.rows)).len() as u32;
    let near = random.one_of(&[end - 1, end, end, end + 1]);
    let inside = random.below(end as usize) as u32;
    let words_end = layout(WORDS / 3).len() as u32 + random.within(0, 42) as u32;
    let first = random.within(0, 8) as u32;
    let last = random.within(5_360, 5_364) as u32;
    let large = random.one_of(&[1 << 27, 1 << 31, u32::MAX - 1, u32::MAX]);
    state.taken = random.one_of(&[
        near, near, near, inside, inside, words_end, first, first, last, large,
    ]);
}

/// Another number of rows; at times the right bytes are all there.
fn rows(state: &mut State, random: &mut Random) {
    state.rows = random.one_of(&ROWS);
    if random.once_in(2) {
        state.taken = layout(announced(state.rows)).len() as u32;
    }
}

/// The same rows in the two lowest digits, and something above them.
fn rows_above(state: &mut State, random: &mut Random) {
    state.rows = state.rows % 256 + 256 * (any_number(random) >> 8);
}

/// A wrong byte, told in some way.
fn wrong(state: &mut State, random: &mut Random) {
    state.wrong = random.one_of(&[1, 2, 256, 1 << 31, u32::MAX]);
}

/// An end, told in some way.
fn ended(state: &mut State, random: &mut Random) {
    state.ended = random.one_of(&[1, 2, 256, 1 << 31, u32::MAX]);
}

/// Other processors.
fn processors(state: &mut State, random: &mut Random) {
    let any = any_number(random);
    state.processors = random.one_of(&[0, 1, 64, 65, 256, 257, any]);
}

/// Another word, any, or one of a row of the sheet, the last more often.
fn word(state: &mut State, random: &mut Random) {
    let rows = announced(state.rows).clamp(1, WORDS / 3);
    let any = random.below(WORDS);
    let in_row = 3 * any_place(rows, random) + random.one_of(&[0, 1, 2, 2, 2]);
    let place = random.one_of(&[any, in_row, in_row, in_row]);
    state.words[place] = any_number(random);
}

/// An answer that nobody gave.
fn answer(state: &mut State, random: &mut Random) {
    let place = random.below(state.answer.len());
    state.answer[place] = any_number(random);
}

/// A state of numbers that follow no rule, but for those that tell where in a sheet it is.
fn without_rule(random: &mut Random) -> State {
    let numbers: Vec<u32> = (0..NUMBERS).map(|_| any_number(random)).collect();
    let mut state = State {
        wrong: 0,
        ended: 0,
        ..State::of(&numbers)
    };
    taken(&mut state, random);
    state
}

/// Bytes that fit a state: what the sheet that is announced has from there on, with digits drawn, and at times something behind it.
fn fitting(state: &State, random: &mut Random) -> Vec<u8> {
    let rows = announced(state.rows).max((state.taken < 7) as usize);
    let layout = layout(rows);
    let due = layout.get(state.taken as usize..).unwrap_or(&[]);
    let length = random.one_of(&[due.len(), 1, 6, 30, 90]).min(due.len());
    let mut byte = |&due: &u8| match due {
        b'#' => random.one_of(b"0123456789ABCDEFabcdef"),
        _ => due,
    };
    let mut bytes: Vec<u8> = due[..length].iter().map(&mut byte).collect();
    if random.once_in(3) {
        bytes.push(random.one_of(b"0\n1G"));
    }
    bytes
}

/// Has a call go on from a state that is made up, with bytes that may come there.
pub fn made_up(call: &mut Call, random: &mut Random) {
    let whole = call.text.len();
    let came = random.below(whole + 1);
    let came = random.one_of(&[came, came, whole]);
    let mut state = match random.below(5) {
        0 => without_rule(random),
        _ => state_of_text(&DOCUMENT, &call.text[..came]),
    };
    for _ in 0..random.below(4) {
        random.one_of(&CHANGES)(&mut state, random);
    }
    call.text = match random.below(3) {
        0 => call.text[came..].to_vec(),
        _ => fitting(&state, random),
    };
    call.state = state.numbers();
}
