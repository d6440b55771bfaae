//! Slips in reading and writing texts.

use super::Slip;
use second::checks::Refusal;
use second::program::{Program, DOCUMENT};
use second::reader::{digit, read, Written};

/// The slips that every text near a sheet's must show: what a wrong program does, and the part that is exchanged.
pub const NEAR: [Slip; 12] = [
    ("names the place one late", |program| {
        program.read = one_late
    }),
    ("takes one more line end", |program| {
        program.read = line_end_more
    }),
    ("takes 0D before 0A", |program| {
        program.read = without_returns
    }),
    ("refuses lower case", |program| {
        program.digit = upper_case_only
    }),
    ("takes g for a digit", |program| {
        program.digit = |byte| digit_or(byte, b'g', 16)
    }),
    ("takes G for a digit", |program| {
        program.digit = |byte| digit_or(byte, b'G', 16)
    }),
    ("takes the byte before a for a digit", |program| {
        program.digit = |byte| digit_or(byte, b'`', 9)
    }),
    ("counts lower case from 0", |program| {
        program.digit = lower_case_from_zero
    }),
    ("refuses lower case in line one", |program| {
        program.read = upper_case_in_line_one
    }),
    ("refuses lower case in rows", |program| {
        program.read = upper_case_in_rows
    }),
    ("refuses a second letter in lower case", |program| {
        program.read = one_letter_in_lower_case
    }),
    ("sets bit 5 of bytes that are no letters", |program| {
        program.read = with_bit_5
    }),
];

/// The other slips.
pub const SLIPS: [Slip; 4] = [
    ("refuses 65 rows before their form", |program| {
        program.read = many_rows_first
    }),
    ("writes little end first", |program| {
        program.number_text = little_end_first
    }),
    ("writes lower case", |program| {
        program.number_text = lower_case_text
    }),
    ("tells a place in decimal", |program| {
        program.refusal_line = decimal_place
    }),
];

/// The wrong byte's offset and one more.
fn one_late(program: &Program, text: &[u8]) -> Result<Written, usize> {
    read(program, text).map_err(|place| place + 1)
}

/// A digit of upper case.
fn upper_case_only(byte: u8) -> Option<u32> {
    (!byte.is_ascii_lowercase()).then(|| digit(byte)).flatten()
}

/// A digit, or one more byte with a value.
fn digit_or(byte: u8, more: u8, value: u32) -> Option<u32> {
    digit(byte).or((byte == more).then_some(value))
}

/// A digit whose value is counted from 0 in lower case.
pub fn lower_case_from_zero(byte: u8) -> Option<u32> {
    digit(byte).map(|value| value - 10 * byte.is_ascii_lowercase() as u32)
}

/// Reads a text that is wrong at some place too, if there is one.
fn wrong_at_too(program: &Program, text: &[u8], place: Option<usize>) -> Result<Written, usize> {
    match (read(program, text), place) {
        (Err(wrong), Some(place)) => Err(wrong.min(place)),
        (Ok(_), Some(place)) => Err(place),
        (read, None) => read,
    }
}

/// The places of letters in lower case.
fn in_lower_case(text: &[u8]) -> impl Iterator<Item = usize> + '_ {
    (0..text.len()).filter(|&place| text[place].is_ascii_lowercase())
}

/// Reads a text whose line one has to be in upper case.
fn upper_case_in_line_one(program: &Program, text: &[u8]) -> Result<Written, usize> {
    let place = in_lower_case(text).find(|&place| place < 7);
    wrong_at_too(program, text, place)
}

/// Reads a text whose rows have to be in upper case.
pub fn upper_case_in_rows(program: &Program, text: &[u8]) -> Result<Written, usize> {
    let place = in_lower_case(text).find(|&place| place >= 7);
    wrong_at_too(program, text, place)
}

/// Reads a text that may have one letter in lower case.
fn one_letter_in_lower_case(program: &Program, text: &[u8]) -> Result<Written, usize> {
    let place = in_lower_case(text).nth(1);
    wrong_at_too(program, text, place)
}

/// Reads a text with bit 5 set in every byte that has bit 4, as if bit 5 told no more than the case.
fn with_bit_5(program: &Program, text: &[u8]) -> Result<Written, usize> {
    let with_it = |&byte: &u8| byte | (byte & 0x10) << 1;
    read(program, &text.iter().map(with_it).collect::<Vec<u8>>())
}

/// Digits in lower case.
pub fn lower_case_text(number: u64, digits: usize) -> String {
    (DOCUMENT.number_text)(number, digits).to_lowercase()
}

/// Reads a text with one more 0A at its end.
fn line_end_more(program: &Program, text: &[u8]) -> Result<Written, usize> {
    let stripped = text
        .strip_suffix(b"\n\n")
        .map(|front| [front, b"\n"].concat());
    read(program, stripped.as_deref().unwrap_or(text))
}

/// Reads a text with every 0D before a 0A left out.
fn without_returns(program: &Program, text: &[u8]) -> Result<Written, usize> {
    let kept = |&place: &usize| !(text[place] == 0x0D && text.get(place + 1) == Some(&0x0A));
    let stripped: Vec<u8> = (0..text.len())
        .filter(kept)
        .map(|place| text[place])
        .collect();
    read(program, &stripped)
}

/// Gives up on the form where line one announces more than 64 rows.
fn many_rows_first(program: &Program, text: &[u8]) -> Result<Written, usize> {
    let announced = text
        .get(4..6)
        .and_then(|digits| std::str::from_utf8(digits).ok());
    let rows = announced
        .and_then(|digits| usize::from_str_radix(digits, 16).ok())
        .unwrap_or(0);
    if rows > 64 {
        return Ok(Written {
            processors: 1,
            words: vec![1; 3 * rows],
        });
    }
    read(program, text)
}

/// Digits in the wrong order.
fn little_end_first(number: u64, digits: usize) -> String {
    (DOCUMENT.number_text)(number, digits)
        .chars()
        .rev()
        .collect()
}

/// A refusal's line with its place in decimal.
fn decimal_place(_program: &Program, refusal: Refusal) -> String {
    format!("1F{:02X}{:04}\n", refusal.number, refusal.place)
}
