//! Letter case: the digits of a sheet may be in either, and what must hold between answers then.

use crate::relations::{answered_alike, between, bytes_of, Relation};
use crate::trial::Trial;
use guarded::Seen;
use second::call::{Call, Entry};
use second::random::Random;

/// The letters that are digits, in lower case and in upper case.
const LETTERS: [(u8, u8); 6] = [
    (b'a', b'A'),
    (b'b', b'B'),
    (b'c', b'C'),
    (b'd', b'D'),
    (b'e', b'E'),
    (b'f', b'F'),
];

/// A byte in upper case: a to f move, and no other.
fn upper(byte: u8) -> u8 {
    let letter = LETTERS.iter().find(|(lower, _)| *lower == byte);
    letter.map_or(byte, |(_, upper)| *upper)
}

/// A text in upper case, byte by byte.
pub fn in_upper_case(text: &[u8]) -> Vec<u8> {
    text.iter().map(|&byte| upper(byte)).collect()
}

/// A text as an editor may leave it: every other time as it is, else in lower case, or each letter in one of both.
pub fn in_some_case(mut text: Vec<u8>, random: &mut Random) -> Vec<u8> {
    match random.below(4) {
        0 => text.make_ascii_lowercase(),
        1 => one_by_one(&mut text, random),
        _ => (),
    }
    text
}

/// Puts about half of the letters in lower case.
fn one_by_one(text: &mut [u8], random: &mut Random) {
    for byte in text.iter_mut().filter(|_| random.once_in(2)) {
        byte.make_ascii_lowercase();
    }
}

/// A sheet's text with one letter in the other case, or with the byte at one place, unless it ends a line, exchanged for a digit of
/// either case.
pub fn one_digit_changed(text: &[u8], random: &mut Random) -> Vec<u8> {
    let mut changed = text.to_vec();
    let is_letter = |&place: &usize| text[place].is_ascii_alphabetic();
    let letters: Vec<usize> = (0..text.len()).filter(is_letter).collect();
    if random.once_in(4) && !letters.is_empty() {
        changed[random.one_of(&letters)] ^= 0x20;
    } else if let Some(byte) = changed.get_mut(random.below(text.len().max(1))) {
        let digit = random.one_of(b"0123456789ABCDEFabcdef");
        *byte = if *byte == 0x0A { 0x0A } else { digit };
    }
    changed
}

/// Any text and the same in upper case get the same answer.
pub const NO_MATTER: Relation = Relation {
    entries: &[Entry::ReadSheet, Entry::AnswerSheet],
    wrong: &[false, true],
    ..between("letter case changes no answer", case_matters)
};

/// A sheet's text in whatever case comes back in upper case.
pub const COMES_BACK: Relation = Relation {
    entries: &[Entry::ReadSheet],
    ..between(
        "a sheet read and written comes back in upper case",
        not_in_upper_case,
    )
};

/// Two sheets read as equal exactly where they are the same in upper case.
pub const READ_AS_EQUAL: Relation = Relation {
    entries: &[Entry::ReadSheet],
    times: 4,
    ..between(
        "sheets read as equal exactly where letter case is all that differs",
        wrongly_equal,
    )
};

/// The text as it is, right or damaged, and in upper case.
fn case_matters(trial: Trial, call: &Call, random: &mut Random) -> Option<String> {
    let text = in_upper_case(&call.text);
    let as_it_is = trial.made(call, random);
    let upper = trial.made(
        &Call {
            text,
            ..call.clone()
        },
        random,
    );
    (!answered_alike(&as_it_is, &upper)).then(|| {
        format!(
            "as it is {:?} {:?}, in upper case {:?} {:?}",
            as_it_is.numbers, as_it_is.after, upper.numbers, upper.after
        )
    })
}

/// The words of the rows that reading a sheet left in front.
fn words_read(read: &Seen) -> Vec<u32> {
    let count = 3 * read.numbers[3] as usize;
    read.after[..count]
        .iter()
        .map(|&word| word as u32)
        .collect()
}

/// The sheet's text read, and what was read written: the text in upper case.
fn not_in_upper_case(trial: Trial, call: &Call, random: &mut Random) -> Option<String> {
    let read = trial.made(call, random);
    if read.numbers[0] != 0 {
        return None;
    }
    let writing = Call {
        room: call.text.len(),
        words: words_read(&read),
        processors: read.numbers[2] as u32,
        ..Call::of(Entry::WriteSheet)
    };
    let written = trial.made(&writing, random);
    let same = written.numbers[0] == 0 && bytes_of(&written) == in_upper_case(&call.text);
    (!same).then(|| {
        format!(
            "written {:?} {:?}",
            written.numbers,
            String::from_utf8_lossy(&bytes_of(&written))
        )
    })
}

/// The sheet's text and one that differs from it in one byte, read: equal exactly where they are the same in upper case.
fn wrongly_equal(trial: Trial, call: &Call, random: &mut Random) -> Option<String> {
    let text = one_digit_changed(&call.text, random);
    let same = in_upper_case(&text) == in_upper_case(&call.text);
    let shown = String::from_utf8_lossy(&text).into_owned();
    let one = trial.made(call, random);
    let other = trial.made(
        &Call {
            text,
            ..call.clone()
        },
        random,
    );
    if one.numbers[0] != 0 || other.numbers[0] != 0 {
        return None;
    }
    let equal = one.numbers == other.numbers && words_read(&one) == words_read(&other);
    (equal != same).then(|| format!("beside {shown:?}: read as equal {equal}"))
}
