//! Calls with something wrong in them: every parameter in turn, and at times two at once, so that the order of checks shows.

use crate::damage::damage;
use crate::lengths::{drawn, lengthened};
use crate::lent::{row_at, row_count, set_row};
use crate::letters::in_some_case;
use crate::widen::{widened, widened_word, with_more_behind};
use second::call::{Call, Entry};
use second::program::DOCUMENT;
use second::random::Random;
use second::writer::sheet_text;

/// A way to spoil a call.
type Spoil = fn(&mut Call, &mut Random);

/// The ways to spoil a call of an entry that is given words.
const IN_WORDS: [Spoil; 10] = [
    words,
    rows,
    processors,
    method,
    horizon,
    room,
    row_number,
    bounds,
    widened,
    with_more_behind,
];

/// The ways to spoil a call of an entry that is given columns.
const IN_COLUMNS: [Spoil; 11] = [
    columns,
    columns,
    rows,
    processors,
    method,
    horizon,
    room,
    row_number,
    bounds,
    widened,
    with_more_behind,
];

/// The ways to spoil a call of an entry that is given a text.
const IN_TEXT: [Spoil; 7] = [
    damaged,
    damaged,
    damaged,
    numbers_in_text,
    numbers_in_text,
    room,
    with_more_behind,
];

/// Spoils a call in one to three ways.
pub fn spoiled(mut call: Call, random: &mut Random) -> Call {
    let ways: &[Spoil] = match call.entry {
        Entry::ReadSheet | Entry::AnswerSheet | Entry::Pieces => &IN_TEXT,
        entry if entry.takes_columns() => &IN_COLUMNS,
        _ => &IN_WORDS,
    };
    for _ in 0..random.one_of(&[1, 1, 2, 3]) {
        random.one_of(ways)(&mut call, random);
    }
    call
}

/// Words that are none, not whole rows, or too many.
fn words(call: &mut Call, random: &mut Random) {
    let length = random.one_of(&[
        0,
        1,
        2,
        call.words.len().saturating_sub(1),
        call.words.len() + 1,
        192,
        195,
        196,
        255 * 3,
        257 * 3,
        call.words.len() + 256,
        call.words.len() + 256 * 3,
    ]);
    call.words = lengthened(&call.words, length);
}

/// Columns that are not all of one length, none, or too many.
fn columns(call: &mut Call, random: &mut Random) {
    let lengths = drawn(row_count(call), random);
    for (column, length) in call.columns.iter_mut().zip(lengths) {
        *column = lengthened(column, length);
    }
}

/// A row's place: any, the last, which comes every other time, or one from place 48 on where there are as many.
pub fn any_place(count: usize, random: &mut Random) -> usize {
    let from_there = count.min(48) % count;
    let late = from_there + random.below(count - from_there);
    let any = random.below(count);
    random.one_of(&[any, late, count - 1, count - 1])
}

/// One number of one row outside the sizes allowed, or just inside.
fn rows(call: &mut Call, random: &mut Random) {
    if row_count(call) == 0 {
        return;
    }
    let place = any_place(row_count(call), random);
    let [cost, deadline, period] = row_at(call, place);
    let wrong = random.one_of(&[
        [0, deadline, period],
        [deadline.wrapping_add(1), deadline, period],
        [cost, period.wrapping_add(1), period],
        [cost, deadline, 1_000_001],
        [cost, deadline, 1_000_000],
        [1, 1_000_001, 1_000_001],
        [0, 0, 0],
        [cost, 0, period],
        [cost, deadline, 0],
        [u32::MAX, u32::MAX, u32::MAX],
        [1, 1, u32::MAX],
        [1 << 31, 1 << 31, 1 << 31],
        [period, deadline, cost],
    ]);
    set_row(call, place, wrong);
}

/// A processor count at or past its limits.
fn processors(call: &mut Call, random: &mut Random) {
    call.processors = random.one_of(&[
        0,
        1,
        64,
        65,
        128,
        255,
        256,
        257,
        65_536,
        65_537,
        1 << 31,
        u32::MAX,
    ]);
}

/// A method that is none.
fn method(call: &mut Call, random: &mut Random) {
    call.method = random.one_of(&[2, 3, 255, 256, 257, 65_536, 1 << 31, u32::MAX]);
}

/// A horizon past its limits. Within them only short ones, since every length is looked at.
fn horizon(call: &mut Call, random: &mut Random) {
    call.horizon = random.one_of(&[0, 1, 2, 16_777_217, 1 << 25, 1 << 31, u32::MAX]);
}

/// An output that is too short, or longer than the answer.
fn room(call: &mut Call, random: &mut Random) {
    let short = random.below(call.room + 1);
    call.room = random.one_of(&[
        0,
        1,
        short,
        call.room.saturating_sub(1),
        call.room + 1,
        call.room + 40,
        8,
    ]);
}

/// A row number that is none.
fn row_number(call: &mut Call, random: &mut Random) {
    let count = row_count(call) as u32;
    call.row = random.one_of(&[
        count,
        count.saturating_sub(1),
        count + 1,
        255,
        256,
        1 << 31,
        u32::MAX,
        0,
    ]);
}

/// Bounds that are too few, too many, or outside their row's cost to deadline.
fn bounds(call: &mut Call, random: &mut Random) {
    let choice = random.below(7);
    let count = call.bounds.len();
    match choice {
        0 => call.bounds.truncate(count.saturating_sub(1)),
        1 => call.bounds.push(call.bounds.last().copied().unwrap_or(1)),
        2 => call.bounds.clear(),
        3 => call.bounds.resize(count + 256, 1),
        _ => one_bound(call, random),
    }
}

/// One bound just outside its row's cost to deadline, or far; at times that of the row under question.
fn one_bound(call: &mut Call, random: &mut Random) {
    let rows = call.bounds.len().min(row_count(call));
    if rows == 0 {
        return;
    }
    let place = if random.once_in(3) {
        (call.row as usize).min(rows - 1)
    } else {
        any_place(rows, random)
    };
    let [cost, deadline, _] = row_at(call, place);
    call.bounds[place] = random.one_of(&[
        cost.wrapping_sub(1),
        deadline.wrapping_add(1),
        0,
        u32::MAX,
        cost,
        deadline,
    ]);
}

/// Damages the text's bytes.
fn damaged(call: &mut Call, random: &mut Random) {
    call.text = damage(&call.text, random);
}

/// Rewrites the text with wrong numbers in the right form: rows as six digits hold them, processors as two do.
fn numbers_in_text(call: &mut Call, random: &mut Random) {
    if random.once_in(4) {
        call.processors = random.one_of(&[0, 1, 64, 65, 255]);
    }
    if random.once_in(4) {
        words(call, random);
        call.words.truncate((call.words.len() / 3).min(255) * 3);
    }
    if random.once_in(4) {
        widened_word(call, 1 << random.within(20, 23), random);
    }
    for _ in 0..random.below(3) {
        rows(call, random);
    }
    let as_six_digits: Vec<u32> = call.words.iter().map(|word| word & 0xFF_FFFF).collect();
    let text = sheet_text(&DOCUMENT, call.processors & 0xFF, &as_six_digits).into_bytes();
    call.text = in_some_case(text, random);
}
