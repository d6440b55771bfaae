//! Right numbers and lengths made larger by a power of two: a program that keeps them in too few bits takes them for right.

use crate::lent::{number, row_count};
use crate::spoil::any_place;
use second::call::{Call, Entry};
use second::random::Random;

/// A number of a call made larger.
type Widen = fn(&mut Call, u32, &mut Random);

/// The numbers that an entry is given.
fn numbers_of(entry: Entry) -> &'static [Widen] {
    match entry.question() {
        Entry::OneRow => &[widened_word, bound, row_number, processors, method],
        Entry::OneProcessor => &[widened_word, horizon],
        Entry::WriteSheet | Entry::Density => &[widened_word, processors],
        _ => &[widened_word, processors, method],
    }
}

/// One of the numbers that the entry is given, larger by a power of two, the largest more often.
pub fn widened(call: &mut Call, random: &mut Random) {
    let bits = random.within(16, 31);
    let power = 1 << random.one_of(&[bits, bits, 31]);
    random.one_of(numbers_of(call.entry))(call, power, random);
}

/// A number of a row.
pub fn widened_word(call: &mut Call, power: u32, random: &mut Random) {
    if row_count(call) > 0 {
        let place = any_place(row_count(call), random);
        *number(call, place, random.below(3)) |= power;
    }
}

/// A bound.
fn bound(call: &mut Call, power: u32, random: &mut Random) {
    if !call.bounds.is_empty() {
        let place = any_place(call.bounds.len(), random);
        call.bounds[place] |= power;
    }
}

/// The row asked about.
fn row_number(call: &mut Call, power: u32, _random: &mut Random) {
    call.row |= power;
}

/// The processors.
fn processors(call: &mut Call, power: u32, _random: &mut Random) {
    call.processors |= power;
}

/// The method.
fn method(call: &mut Call, power: u32, _random: &mut Random) {
    call.method |= power;
}

/// The horizon, past the largest allowed: up to there every length is looked at.
fn horizon(call: &mut Call, power: u32, _random: &mut Random) {
    call.horizon |= power.max(1 << 24);
}

/// A length made larger by elements lent behind it.
type Lengthen = fn(&mut Call, usize, &mut Random);

/// The lengths that an entry is given.
fn lengths_of(entry: Entry) -> &'static [Lengthen] {
    match entry {
        Entry::OneRow => &[words_behind, bounds_behind],
        Entry::OneRowColumns => &[columns_behind, columns_behind, bounds_behind],
        Entry::OneProcessor | Entry::Density => &[words_behind],
        Entry::OneProcessorColumns | Entry::DensityColumns => &[columns_behind],
        Entry::ReadSheet | Entry::AnswerSheet => &[text_behind, room],
        Entry::Pieces => &[piece_behind, room],
        entry if entry.takes_columns() => &[columns_behind, columns_behind, room],
        _ => &[words_behind, room],
    }
}

/// One of the lengths that the entry is given, larger by 2^16 to 2^32, by 2^32 more often.
pub fn with_more_behind(call: &mut Call, random: &mut Random) {
    let bits = random.within(16, 32);
    let power = 1 << random.one_of(&[bits, bits, 32]);
    random.one_of(lengths_of(call.entry))(call, power, random);
}

/// Words behind the rows, whole rows of them or not.
fn words_behind(call: &mut Call, power: usize, random: &mut Random) {
    call.behind.words = random.one_of(&[power, 3 * power.min(1 << 30)]);
}

/// Words behind one column; or behind all three as many, behind two, or behind one twice as many.
fn columns_behind(call: &mut Call, power: usize, random: &mut Random) {
    let columns = &mut call.behind.columns;
    let list = random.below(3);
    if random.once_in(3) {
        let many = power.min(1 << 30);
        *columns = [many; 3];
        columns[list] = random.one_of(&[many, many, 0, 2 * many]);
    } else {
        columns[list] = power;
    }
}

/// Bounds behind the bounds.
fn bounds_behind(call: &mut Call, power: usize, _random: &mut Random) {
    call.behind.bounds = power;
}

/// Bytes behind the text.
fn text_behind(call: &mut Call, power: usize, _random: &mut Random) {
    call.behind.text = power;
}

/// Bytes behind a piece, few enough to be read one by one.
fn piece_behind(call: &mut Call, power: usize, _random: &mut Random) {
    call.behind.text = power.min(1 << 18);
}

/// A room that would be too short without the power of two.
fn room(call: &mut Call, power: usize, random: &mut Random) {
    call.room = power + random.below(call.room + 1);
}
