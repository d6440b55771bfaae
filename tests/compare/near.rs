//! Every text near a small sheet's, in either case: one byte changed to any other, put in or left out, at any place, and every
//! early end. Where it comes in pieces, it comes in two.

use crate::difference::compared;
use crate::show::{call_shown, difference_shown};
use second::call::{Call, Entry, Step};
use second::program::Program;
use second::random::Random;

/// A sheet of two rows with all sorts of digits, in upper case and in lower case.
const SHEETS: [&[u8]; 2] = [
    b"010A02\n02000009000C8B0F423F\n020000A10DEF560F4240\n",
    b"010a02\n02000009000c8b0f423f\n020000a10def560f4240\n",
];

/// A sheet with what stands at some places exchanged for other bytes.
fn exchanged(sheet: &[u8], from: usize, to: usize, bytes: &[u8]) -> Vec<u8> {
    [&sheet[..from], bytes, &sheet[to..]].concat()
}

/// Every text near a sheet.
fn near(sheet: &[u8]) -> Vec<Vec<u8>> {
    let mut texts = Vec::new();
    for place in 0..sheet.len() {
        texts.push(sheet[..place].to_vec());
        texts.push(exchanged(sheet, place, place + 1, &[]));
        texts.extend((0..=255).map(|byte| exchanged(sheet, place, place + 1, &[byte])));
    }
    for place in 0..=sheet.len() {
        texts.extend((0..=255).map(|byte| exchanged(sheet, place, place, &[byte])));
    }
    texts
}

/// The first of these texts that the proved program reads or answers otherwise than a second one, in words.
pub fn first_difference(program: &Program, entry: Entry) -> Option<String> {
    let mut random = Random::of([SHEETS[0].len() as u64]);
    SHEETS.into_iter().flat_map(near).find_map(|text| {
        let pieces = [text.len() / 2, text.len()].map(Step::Piece);
        let call = Call {
            text,
            room: 40,
            steps: [&pieces[..], &[Step::End(40)]].concat(),
            ..Call::of(entry)
        };
        let shown = difference_shown(&compared(program, &call, &mut random))?;
        Some(format!("{}\n{shown}", call_shown(&call)))
    })
}
