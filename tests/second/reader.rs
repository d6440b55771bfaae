//! Reading a sheet's text, by splitting it into lines.

use crate::program::Program;

/// A sheet's text as written: processors, and three words a row. Nothing is judged yet.
#[derive(Clone, PartialEq, Eq, Debug)]
pub struct Written {
    pub processors: u32,
    pub words: Vec<u32>,
}

/// The digits in order, in both cases.
const DIGITS: [&[u8; 16]; 2] = [b"0123456789ABCDEF", b"0123456789abcdef"];

/// The value of a digit byte: its place among the digits of either case.
pub fn digit(byte: u8) -> Option<u32> {
    let place = |digits: &[u8; 16]| digits.iter().position(|&digit| digit == byte);
    DIGITS.into_iter().find_map(place).map(|place| place as u32)
}

/// The lines of a text, each with the offset it begins at; only the last may lack its end.
fn lines_of(text: &[u8]) -> Vec<(usize, &[u8])> {
    let mut next = 0;
    let mut lines = Vec::new();
    for line in text.split_inclusive(|&byte| byte == 0x0A) {
        lines.push((next, line));
        next += line.len();
    }
    lines
}

/// The number of so many digits at an offset of a line, or the offset that is no digit.
fn number_at(program: &Program, line: &[u8], offset: usize, width: usize) -> Result<u32, usize> {
    let mut number = 0;
    for at in offset..offset + width {
        let byte = *line.get(at).ok_or(at)?;
        number = number * 16 + (program.digit)(byte).ok_or(at)?;
    }
    Ok(number)
}

/// The numbers of a line that begins with a kind and has fields of the widths given, or the offset in the line that is wrong.
fn fields(program: &Program, line: &[u8], kind: &str, widths: &[usize]) -> Result<Vec<u32>, usize> {
    let differs = |(offset, due): &(usize, u8)| line.get(*offset) != Some(due);
    if let Some((offset, _)) = kind.bytes().enumerate().find(differs) {
        return Err(offset);
    }
    let mut numbers = Vec::new();
    let mut offset = kind.len();
    for &width in widths {
        numbers.push(number_at(program, line, offset, width)?);
        offset += width;
    }
    match line.get(offset) {
        Some(0x0A) => Ok(numbers),
        _ => Err(offset),
    }
}

/// Reads a sheet, or gives the offset of the first wrong byte, or the length of a text that ends early.
pub fn read(program: &Program, text: &[u8]) -> Result<Written, usize> {
    let lines = lines_of(text);
    let line_at = |index: usize, kind: &str, widths: &[usize]| {
        let (start, line) = *lines.get(index).ok_or(text.len())?;
        fields(program, line, kind, widths).map_err(|offset| start + offset)
    };
    let first = line_at(0, "01", &[2, 2])?;
    let (processors, rows) = (first[0], first[1] as usize);
    let mut words = Vec::new();
    for index in 1..=rows {
        words.extend(line_at(index, "02", &[6, 6, 6])?);
    }
    match lines.get(1 + rows) {
        Some((start, _)) => Err(*start),
        None => Ok(Written { processors, words }),
    }
}
