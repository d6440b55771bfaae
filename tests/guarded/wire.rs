//! A call and what was seen of it, as they go from one program to another: lists of numbers, each behind its length.

use crate::seen::Seen;
use second::call::{Behind, Call, Entry, Step};
use second::random::Random;
use std::io::{ErrorKind, Read, Result, Write};

/// The entries, by whose places they are told.
const ENTRIES: [Entry; 16] = [
    Entry::OneRow,
    Entry::RefineRounds,
    Entry::RefineAtOnce,
    Entry::OneProcessor,
    Entry::ReadSheet,
    Entry::WriteSheet,
    Entry::WriteResult,
    Entry::AnswerSheet,
    Entry::OneRowColumns,
    Entry::RefineRoundsColumns,
    Entry::RefineAtOnceColumns,
    Entry::OneProcessorColumns,
    Entry::WriteResultColumns,
    Entry::Density,
    Entry::DensityColumns,
    Entry::Pieces,
];

/// How many bytes a number has.
const WIDTH: usize = 8;

/// Sends lists of numbers at once.
fn send(to: &mut impl Write, lists: &[Vec<u64>]) -> Result<()> {
    let mut bytes = Vec::new();
    for list in lists {
        bytes.extend((list.len() as u64).to_le_bytes());
        bytes.extend(list.iter().flat_map(|number| number.to_le_bytes()));
    }
    to.write_all(&bytes)?;
    to.flush()
}

/// Receives a list of numbers.
fn receive(from: &mut impl Read) -> Result<Vec<u64>> {
    let mut length = [0; WIDTH];
    from.read_exact(&mut length)?;
    let mut bytes = vec![0; WIDTH * u64::from_le_bytes(length) as usize];
    from.read_exact(&mut bytes)?;
    let number = |part: &[u8]| {
        part.iter()
            .rev()
            .fold(0, |high, &byte| high << 8 | u64::from(byte))
    };
    Ok(bytes.chunks_exact(WIDTH).map(number).collect())
}

/// Elements as numbers.
fn wide<T: Copy + Into<u64>>(elements: &[T]) -> Vec<u64> {
    elements.iter().map(|&element| element.into()).collect()
}

/// What is lent behind the lists of a call, as numbers.
fn behind_sent(behind: &Behind) -> Vec<u64> {
    let [costs, deadlines, periods] = behind.columns;
    let lengths = [
        behind.words,
        costs,
        deadlines,
        periods,
        behind.bounds,
        behind.text,
    ];
    lengths.map(|length| length as u64).to_vec()
}

/// What is lent behind the lists of a call, from numbers.
fn behind_received(numbers: &[u64]) -> Behind {
    let length = |place: usize| numbers[place] as usize;
    Behind {
        words: length(0),
        columns: [length(1), length(2), length(3)],
        bounds: length(4),
        text: length(5),
    }
}

/// The steps of a call, as numbers: two a step, whether it is an end, and its length or room.
fn steps_sent(steps: &[Step]) -> Vec<u64> {
    let numbers = |&step: &Step| match step {
        Step::Piece(length) => [0, length as u64],
        Step::End(room) => [1, room as u64],
    };
    steps.iter().flat_map(numbers).collect()
}

/// The steps of a call, from numbers.
fn steps_received(numbers: &[u64]) -> Vec<Step> {
    let step = |pair: &[u64]| match pair[0] {
        0 => Step::Piece(pair[1] as usize),
        _ => Step::End(pair[1] as usize),
    };
    numbers.chunks_exact(2).map(step).collect()
}

/// Sends a call, and the random generator that it is made with.
pub fn send_call(to: &mut impl Write, call: &Call, random: &Random) -> Result<()> {
    let place = ENTRIES.iter().position(|entry| *entry == call.entry);
    let numbers = vec![
        place.unwrap() as u64,
        call.processors.into(),
        call.method.into(),
        call.row.into(),
        call.horizon.into(),
        call.room as u64,
        random.state(),
    ];
    let [costs, deadlines, periods] = &call.columns;
    send(
        to,
        &[
            numbers,
            behind_sent(&call.behind),
            wide(&call.words),
            wide(costs),
            wide(deadlines),
            wide(periods),
            wide(&call.bounds),
            wide(&call.text),
            wide(&call.state),
            steps_sent(&call.steps),
        ],
    )
}

/// Receives a call and its random generator; nothing where there are no more calls.
pub fn receive_call(from: &mut impl Read) -> Result<Option<(Call, Random)>> {
    let numbers = match receive(from) {
        Err(why) if why.kind() == ErrorKind::UnexpectedEof => return Ok(None),
        received => received?,
    };
    let behind = behind_received(&receive(from)?);
    let words = |list: Vec<u64>| list.into_iter().map(|number| number as u32).collect();
    let call = Call {
        entry: ENTRIES[numbers[0] as usize],
        processors: numbers[1] as u32,
        method: numbers[2] as u32,
        row: numbers[3] as u32,
        horizon: numbers[4] as u32,
        room: numbers[5] as usize,
        behind,
        words: words(receive(from)?),
        columns: [
            words(receive(from)?),
            words(receive(from)?),
            words(receive(from)?),
        ],
        bounds: words(receive(from)?),
        text: receive(from)?.iter().map(|&number| number as u8).collect(),
        state: words(receive(from)?),
        steps: steps_received(&receive(from)?),
    };
    Ok(Some((call, Random::from_state(numbers[6]))))
}

/// Sends what was seen of a call, and the random generator behind it.
pub fn send_seen(to: &mut impl Write, seen: &Seen, random: &Random) -> Result<()> {
    let kept = vec![
        seen.inputs_kept.into(),
        seen.guards_kept.into(),
        random.state(),
    ];
    send(
        to,
        &[
            kept,
            seen.numbers.clone(),
            seen.before.clone(),
            seen.after.clone(),
        ],
    )
}

/// Receives what was seen of a call, and the random generator behind it.
pub fn receive_seen(from: &mut impl Read) -> Result<(Seen, Random)> {
    let kept = receive(from)?;
    let seen = Seen {
        numbers: receive(from)?,
        before: receive(from)?,
        after: receive(from)?,
        inputs_kept: kept[0] == 1,
        guards_kept: kept[1] == 1,
    };
    Ok((seen, Random::from_state(kept[2])))
}
