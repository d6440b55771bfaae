//! A call and a difference in words.

use crate::difference::Compared;
use crate::groups::entry_name;
use crate::lent::in_triples;
use second::call::{Call, Entry, Step};
use second::state::{NUMBERS, WORDS};
use sheets::{joined, rows_shown};

/// A text with its line ends and strange bytes made visible.
fn text_shown(text: &[u8]) -> String {
    format!("\"{}\"", text.escape_ascii())
}

/// The names of the columns.
const COLUMNS: [&str; 3] = ["costs", "deadlines", "periods"];

/// A list of words, or that there are none.
fn list_shown(words: &[u32]) -> String {
    match words.len() {
        0 => "none".to_string(),
        _ => joined(words),
    }
}

/// The rows that a call is lent; columns that are not of one length list by list.
fn lent_shown(call: &Call) -> String {
    if !call.entry.takes_columns() {
        return format!("rows {}", rows_shown(&call.words));
    }
    if let Some(triples) = in_triples(call) {
        return format!("rows {}", rows_shown(&triples.words));
    }
    let lists = COLUMNS.iter().zip(&call.columns);
    let shown: Vec<String> = lists
        .map(|(name, words)| format!("{name} {}", list_shown(words)))
        .collect();
    shown.join("; ")
}

/// A state in words, without the words of 0 at its end.
fn state_shown(numbers: &[u64]) -> String {
    let (front, rest) = numbers.split_at(4);
    let (words, told) = rest.split_at(WORDS);
    let kept = WORDS - words.iter().rev().take_while(|&&word| word == 0).count();
    format!(
        "taken {}, wrong {}, processors {}, rows {}, words [{}], ended {}, answer {}",
        front[0],
        front[1],
        front[2],
        front[3],
        joined(&words[..kept]),
        told[0],
        joined(&told[1..])
    )
}

/// The state that a sheet in pieces goes on from, its text, and its steps.
fn pieces_shown(call: &Call) -> String {
    let numbers: Vec<u64> = call.state.iter().map(|&number| number.into()).collect();
    let from = match numbers.len() {
        0 => "the start".to_string(),
        _ => state_shown(&numbers),
    };
    let step = |step: &Step| match step {
        Step::Piece(length) => format!("piece of {length}"),
        Step::End(room) => format!("end with room {room}"),
    };
    let steps: Vec<String> = call.steps.iter().map(step).collect();
    let text = text_shown(&call.text);
    format!("from {from}, text {text}, {}", steps.join(", "))
}

/// The numbers that a program returned; of states the first that another program has otherwise, or else the last.
fn numbers_shown(numbers: &[u64], others: &[u64]) -> String {
    if numbers.len() < NUMBERS {
        return joined(numbers);
    }
    let states: Vec<&[u64]> = numbers.chunks_exact(NUMBERS).collect();
    let differs = |(one, other): (&[u64], &[u64])| one != other;
    let mut pairs = states.iter().copied().zip(others.chunks_exact(NUMBERS));
    let place = pairs.position(differs).unwrap_or(states.len() - 1);
    format!("behind step {place} {}", state_shown(states[place]))
}

/// What an entry is given, in one line.
pub fn call_shown(call: &Call) -> String {
    let rows = lent_shown(call);
    let given = match call.entry.question() {
        Entry::OneRow => format!(
            "{rows}, processors {}, method {}, bounds {}, row {}",
            call.processors,
            call.method,
            joined(&call.bounds),
            call.row
        ),
        Entry::OneProcessor => format!("{rows}, horizon {}", call.horizon),
        Entry::Density => format!("{rows}, processors {}", call.processors),
        Entry::Pieces => pieces_shown(call),
        Entry::WriteSheet => format!("{rows}, processors {}, room {}", call.processors, call.room),
        Entry::ReadSheet | Entry::AnswerSheet => {
            format!("text {}, room {}", text_shown(&call.text), call.room)
        }
        _ => format!(
            "{rows}, processors {}, method {}, room {}",
            call.processors, call.method, call.room
        ),
    };
    let behind = behind_shown(call);
    format!("{}: {given}{behind}", entry_name(call.entry))
}

/// What is lent behind the words, the columns, the bounds and the text, where something is.
fn behind_shown(call: &Call) -> String {
    let lists = [
        (call.behind.words, "words"),
        (call.behind.bounds, "bounds"),
        (call.behind.text, "bytes"),
    ];
    let columns = call.behind.columns.into_iter().zip(COLUMNS);
    let lent = lists.into_iter().chain(columns);
    lent.filter(|(count, _)| *count > 0)
        .map(|(count, what)| format!(", {count} {what} of 0 behind"))
        .collect()
}

/// What differs and what both programs gave, in three lines, where something differs.
pub fn difference_shown(compared: &Compared) -> Option<String> {
    let what = compared.what?;
    let (proved, second) = (&compared.proved, &compared.second);
    let became = match proved.before.len() {
        0 => "no output lent".to_string(),
        _ => format!(
            "output {} became {}",
            joined(&proved.before),
            joined(&proved.after)
        ),
    };
    let words = [second.words.clone(), second.at_ends.concat()].concat();
    let writes = match (words.len(), second.text.len()) {
        (0, 0) => "writes nothing".to_string(),
        (0, _) => format!("writes {}", text_shown(&second.text)),
        _ => format!("writes {}", joined(&words)),
    };
    let numbers = (
        numbers_shown(&proved.numbers, &second.numbers),
        numbers_shown(&second.numbers, &proved.numbers),
    );
    Some(format!(
        "  differs in {what}\n  proved program: {}; {became}\n  second program: {}; {writes}",
        numbers.0, numbers.1
    ))
}
