//! Shrinking: of a call that shows a difference, the smallest that still does and can be reached by making it smaller step by step.

use crate::fewer::fewer_steps;
use crate::lent::{keep_rows, remove_row, row_at, row_count, set_row};
use second::call::{Call, Entry};
use second::program::DOCUMENT;
use second::reader::read;
use second::writer::sheet_text;
use std::time::{Duration, Instant};

/// Shrinks a call while it still differs and there is time.
pub fn shrunk(call: &Call, time: Duration, differs: impl Fn(&Call) -> bool) -> Call {
    let started = Instant::now();
    let mut smallest = call.clone();
    loop {
        let next = smaller(&smallest)
            .into_iter()
            .find(|tried| started.elapsed() < time && differs(tried));
        match next {
            Some(found) => smallest = found,
            None => return smallest,
        }
    }
}

/// Calls that are smaller by one step, the boldest first.
fn smaller(call: &Call) -> Vec<Call> {
    let mut calls = match call.entry {
        Entry::ReadSheet | Entry::AnswerSheet => smaller_text(call),
        Entry::Pieces => [fewer_steps(call), smaller_text(call)].concat(),
        _ => [fewer_rows(call), shorter_columns(call), smaller_words(call)].concat(),
    };
    calls.extend(smaller_parameters(call));
    calls.retain(|tried| tried != call);
    calls
}

/// A number's smaller neighbours: 0, 1, half of it, one less.
pub fn lower(number: u32) -> Vec<u32> {
    let mut lower = vec![0, 1, number / 2, number.saturating_sub(1)];
    lower.retain(|&tried| tried < number);
    lower
}

/// The call without the row at a place and its bound.
fn without_row(call: &Call, place: usize) -> Call {
    let mut fewer = call.clone();
    remove_row(&mut fewer, place);
    if place < fewer.bounds.len() {
        fewer.bounds.remove(place);
    }
    fewer.row -= (fewer.row as usize > place) as u32;
    fewer
}

/// The call with half of its rows, with one row less, or with one row and one processor less.
fn fewer_rows(call: &Call) -> Vec<Call> {
    let rows = row_count(call);
    let mut half = call.clone();
    keep_rows(&mut half, rows / 2);
    half.bounds.truncate(rows / 2);
    let mut calls = vec![half];
    for place in 0..rows {
        let fewer = without_row(call, place);
        let processors = call.processors.saturating_sub(1);
        calls.push(Call {
            processors,
            ..fewer.clone()
        });
        calls.push(fewer);
    }
    calls
}

/// The call with one of its columns shorter: by half, or by one word.
fn shorter_columns(call: &Call) -> Vec<Call> {
    let mut calls = Vec::new();
    for (list, column) in call.columns.iter().enumerate() {
        for length in [column.len() / 2, column.len().saturating_sub(1)] {
            let mut tried = call.clone();
            tried.columns[list].truncate(length);
            calls.push(tried);
        }
    }
    calls
}

/// Rows smaller than a row: all numbers halved, all or some lowered by one, numbers made equal, one number lowered.
fn smaller_rows(row: [u32; 3]) -> Vec<[u32; 3]> {
    let [cost, deadline, period] = row;
    let less = |number: u32| number.saturating_sub(1);
    let mut rows = vec![
        [1, 1, 1],
        [cost / 2, deadline / 2, period / 2],
        [cost, deadline, deadline],
        [cost, cost, cost],
        [less(cost), less(deadline), less(period)],
        [cost, less(deadline), less(period)],
    ];
    rows.extend(lower(cost).into_iter().map(|cost| [cost, deadline, period]));
    rows.extend(
        lower(deadline)
            .into_iter()
            .map(|deadline| [cost, deadline, period]),
    );
    rows.extend(
        lower(period)
            .into_iter()
            .map(|period| [cost, deadline, period]),
    );
    let size = |row: &[u32; 3]| row.iter().map(|&number| number as u64).sum::<u64>();
    rows.retain(|tried| size(tried) < size(&row));
    rows
}

/// The call with another row at a place, and its bound brought within it.
fn with_row(call: &Call, place: usize, row: [u32; 3]) -> Call {
    let mut tried = call.clone();
    set_row(&mut tried, place, row);
    if let Some(bound) = tried.bounds.get_mut(place) {
        *bound = (*bound).min(row[1]).max(row[0]);
    }
    tried
}

/// The call with all rows halved, with one row smaller, or with one bound lower.
fn smaller_words(call: &Call) -> Vec<Call> {
    let half = |list: &[u32]| -> Vec<u32> { list.iter().map(|word| word.div_ceil(2)).collect() };
    let halved = Call {
        words: half(&call.words),
        columns: [0, 1, 2].map(|list| half(&call.columns[list])),
        bounds: half(&call.bounds),
        ..call.clone()
    };
    let mut calls = vec![halved];
    for place in 0..row_count(call) {
        let rows = smaller_rows(row_at(call, place));
        calls.extend(rows.into_iter().map(|row| with_row(call, place, row)));
    }
    for place in 0..call.bounds.len() {
        for bound in lower(call.bounds[place]) {
            let mut tried = call.clone();
            tried.bounds[place] = bound;
            calls.push(tried);
        }
    }
    calls
}

/// The call with one of its single numbers lower.
fn smaller_parameters(call: &Call) -> Vec<Call> {
    let processors = lower(call.processors).into_iter().map(|processors| Call {
        processors,
        ..call.clone()
    });
    let methods = lower(call.method).into_iter().map(|method| Call {
        method,
        ..call.clone()
    });
    let rows = lower(call.row).into_iter().map(|row| Call {
        row,
        ..call.clone()
    });
    let horizons = lower(call.horizon).into_iter().map(|horizon| Call {
        horizon,
        ..call.clone()
    });
    let rooms = lower(call.room as u32).into_iter().map(|room| Call {
        room: room as usize,
        ..call.clone()
    });
    processors
        .chain(methods)
        .chain(rows)
        .chain(horizons)
        .chain(rooms)
        .collect()
}

/// The call with a smaller text: as a sheet where it can be read as one, else by its lines and bytes.
fn smaller_text(call: &Call) -> Vec<Call> {
    let texts = match read(&DOCUMENT, &call.text) {
        Ok(written) => {
            let sheet = Call {
                entry: Entry::RefineRounds,
                words: written.words,
                bounds: Vec::new(),
                processors: written.processors,
                ..call.clone()
            };
            let smaller_sheets = [
                fewer_rows(&sheet),
                smaller_words(&sheet),
                smaller_parameters(&sheet),
            ]
            .concat();
            let texts = smaller_sheets
                .iter()
                .map(|tried| sheet_text(&DOCUMENT, tried.processors, &tried.words).into_bytes());
            texts
                .flat_map(|text| [text.to_ascii_lowercase(), text])
                .chain(fewer_in_lower_case(&call.text))
                .collect()
        }
        Err(_) => [fewer_lines(&call.text), fewer_bytes(&call.text)].concat(),
    };
    texts
        .into_iter()
        .map(|text| Call {
            text,
            ..call.clone()
        })
        .collect()
}

/// The text with one letter of it put in upper case.
fn fewer_in_lower_case(text: &[u8]) -> Vec<Vec<u8>> {
    let places = (0..text.len()).filter(|&place| text[place].is_ascii_lowercase());
    let raised = |place: usize| {
        let mut tried = text.to_vec();
        tried[place].make_ascii_uppercase();
        tried
    };
    places.map(raised).collect()
}

/// The row count that line one announces, where it is there and above 0.
fn announced(text: &[u8]) -> Option<u8> {
    let first = text.split(|&byte| byte == 0x0A).next()?;
    let digits = std::str::from_utf8(first.get(4..6)?).ok()?;
    u8::from_str_radix(digits, 16).ok().filter(|&rows| rows > 0)
}

/// The text with one line less and a row less announced, where line one announces rows.
fn fewer_lines(text: &[u8]) -> Vec<Vec<u8>> {
    let Some(rows) = announced(text) else {
        return Vec::new();
    };
    let lines: Vec<&[u8]> = text.split_inclusive(|&byte| byte == 0x0A).collect();
    let without = |left_out: usize| {
        let kept = (0..lines.len()).filter(|&index| index != left_out);
        let mut shorter: Vec<u8> = kept.flat_map(|index| lines[index].to_vec()).collect();
        shorter[4..6].copy_from_slice(format!("{:02X}", rows - 1).as_bytes());
        shorter
    };
    (1..lines.len()).map(without).collect()
}

/// The text with its second half, its last byte, or one byte left out; or one byte replaced by a 0.
fn fewer_bytes(text: &[u8]) -> Vec<Vec<u8>> {
    let mut texts = vec![
        text[..text.len() / 2].to_vec(),
        text[..text.len().saturating_sub(1)].to_vec(),
    ];
    for place in 0..text.len() {
        texts.push([&text[..place], &text[place + 1..]].concat());
    }
    for place in 0..text.len() {
        if (b'1'..=b'F').contains(&text[place]) {
            texts.push([&text[..place], b"0", &text[place + 1..]].concat());
        }
    }
    texts
}
