//! A call of any entry with all its memory between guards, and what was seen of it.

use crate::by_columns;
use crate::exported::*;
use crate::in_pieces;
use crate::lent::{Element, Lent};
use crate::seen::{Seen, CALLS};
use second::call::{Call, Entry};
use second::random::Random;
use std::sync::atomic::Ordering;

/// Lent inputs of a call.
pub struct Inputs {
    words: Lent<u32>,
    pub columns: [Lent<u32>; 3],
    pub bounds: Lent<u32>,
    text: Lent<u8>,
}

impl Inputs {
    /// Lends what a call is given.
    fn lent(call: &Call, random: &mut Random) -> Inputs {
        let words = Lent::new(&call.words, call.behind.words, random);
        let column =
            |list: usize| Lent::new(&call.columns[list], call.behind.columns[list], random);
        Inputs {
            words,
            columns: [0, 1, 2].map(column),
            bounds: Lent::new(&call.bounds, call.behind.bounds, random),
            text: Lent::new(&call.text, call.behind.text, random),
        }
    }

    /// Whether everything lent is as it was.
    fn kept(&self) -> bool {
        let columns_kept = self.columns.iter().all(Lent::kept);
        self.words.kept() && columns_kept && self.bounds.kept() && self.text.kept()
    }
}

/// Makes a call, with guards and old output contents drawn from a random generator.
pub fn made(call: &Call, random: &mut Random) -> Seen {
    CALLS.fetch_add(1, Ordering::Relaxed);
    if call.entry == Entry::Pieces {
        return in_pieces::made(call, random);
    }
    let mut inputs = Inputs::lent(call, random);
    match call.entry.question() {
        Entry::OneRow | Entry::OneProcessor | Entry::Density => {
            let numbers = answered(call, &mut inputs);
            let nothing: Lent<u8> = Lent::new(&[], 0, &mut Random::of([0]));
            seen(numbers, &inputs, &nothing)
        }
        Entry::WriteSheet | Entry::WriteResult | Entry::AnswerSheet => {
            let mut out = Lent::room(call.room, random);
            let numbers = to_text(call, &mut inputs, &mut out);
            seen(numbers, &inputs, &out)
        }
        _ => {
            let mut out = Lent::room(call.room, random);
            let numbers = to_words(call, &mut inputs, &mut out);
            seen(numbers, &inputs, &out)
        }
    }
}

/// A call of an entry that writes nothing.
fn answered(call: &Call, inputs: &mut Inputs) -> Vec<u64> {
    if call.entry.takes_columns() {
        return by_columns::answered(call, inputs);
    }
    let (words, length) = inputs.words.pointer_and_length();
    let (bounds, bounds_length) = inputs.bounds.pointer_and_length();
    // SAFETY: each pointer is to as many elements as its length says, and they live past the call.
    unsafe {
        match call.entry {
            Entry::OneRow => circuitrail_one_row(
                words,
                length,
                call.processors,
                call.method,
                bounds,
                bounds_length,
                call.row,
            )
            .into(),
            Entry::Density => circuitrail_density(words, length, call.processors).into(),
            _ => circuitrail_one_processor(words, length, call.horizon).into(),
        }
    }
}

/// A call of an entry that writes words.
fn to_words(call: &Call, inputs: &mut Inputs, out: &mut Lent<u32>) -> Vec<u64> {
    if call.entry.takes_columns() {
        return by_columns::to_words(call, inputs, out);
    }
    let (words, length) = inputs.words.pointer_and_length();
    let (text, text_length) = inputs.text.pointer_and_length();
    let (pointer, room) = out.pointer_and_length();
    // SAFETY: each pointer is to as many elements as its length says, they live past the call, and the output overlaps nothing.
    unsafe {
        match call.entry {
            Entry::RefineRounds => circuitrail_refine_rounds(
                words,
                length,
                call.processors,
                call.method,
                pointer,
                room,
            )
            .into(),
            Entry::RefineAtOnce => circuitrail_refine_at_once(
                words,
                length,
                call.processors,
                call.method,
                pointer,
                room,
            )
            .into(),
            _ => circuitrail_read_sheet(text, text_length, pointer, room).into(),
        }
    }
}

/// A call of an entry that writes a text.
fn to_text(call: &Call, inputs: &mut Inputs, out: &mut Lent<u8>) -> Vec<u64> {
    if call.entry.takes_columns() {
        return by_columns::to_text(call, inputs, out);
    }
    let (words, length) = inputs.words.pointer_and_length();
    let (text, text_length) = inputs.text.pointer_and_length();
    let (pointer, room) = out.pointer_and_length();
    // SAFETY: each pointer is to as many elements as its length says, they live past the call, and the output overlaps nothing.
    unsafe {
        match call.entry {
            Entry::WriteSheet => {
                circuitrail_write_sheet(words, length, call.processors, pointer, room).into()
            }
            Entry::WriteResult => {
                circuitrail_write_result(words, length, call.processors, call.method, pointer, room)
                    .into()
            }
            _ => circuitrail_answer_sheet(text, text_length, pointer, room).into(),
        }
    }
}

/// What was seen of a call, from its numbers and its lent memory.
fn seen<T: Element + Into<u64>>(numbers: Vec<u64>, inputs: &Inputs, out: &Lent<T>) -> Seen {
    let wide = |part: &[T]| part.iter().map(|&element| element.into()).collect();
    Seen {
        numbers,
        before: wide(out.old()),
        after: wide(out.now()),
        inputs_kept: inputs.kept(),
        guards_kept: out.guards_kept(),
    }
}
