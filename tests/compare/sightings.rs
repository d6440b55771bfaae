//! What the calls met, so that a run can tell that it met everything there is to meet.

use crate::densities::{NO, UNSURE, YES};
use crate::exact::test_of;
use crate::groups::{entry_name, ENTRIES};
use crate::lent::row_count;
use guarded::Seen;
use second::call::{Call, Entry, Step};
use second::checks::applying;
use second::state::{NUMBERS, WORDS};
use std::cmp::Ordering;
use std::collections::BTreeMap;
use std::sync::Mutex;

/// How often each entry gave each kind of answer.
static MET: Mutex<BTreeMap<(&str, String), u64>> = Mutex::new(BTreeMap::new());

/// Notes what a call met.
pub fn note(call: &Call, seen: &Seen) {
    let key = (entry_name(call.entry), kind_of_answer(call, seen));
    *MET.lock().unwrap().entry(key).or_default() += 1;
}

/// Tells how often each kind of answer was met, and returns those that were not.
pub fn never_met() -> Vec<String> {
    let met = MET.lock().unwrap();
    let mut never = Vec::new();
    for (entry, name) in ENTRIES {
        let kinds = kinds_of_answer(entry);
        let count = |kind: &String| met.get(&(name, kind.clone())).copied().unwrap_or(0);
        let shown: Vec<String> = kinds
            .iter()
            .map(|kind| format!("{kind} {}", count(kind)))
            .collect();
        println!("{name}: {}", shown.join(", "));
        never.extend(
            kinds
                .iter()
                .filter(|kind| count(kind) == 0)
                .map(|kind| format!("{name}: {kind}")),
        );
    }
    never
}

/// The kinds of density answers: near is as near to the limit as unsure may be, and even is the limit itself, by exact fractions.
const DENSITIES: [&str; 8] = [
    "yes",
    "yes near below",
    "yes when even",
    "unsure below",
    "unsure when even",
    "unsure above",
    "no near above",
    "no",
];

/// The kinds of sheets that are read, by the case of their letters.
const LETTERS: [&str; 4] = [
    "done without letters",
    "done in upper case",
    "done in lower case",
    "done in both cases",
];

/// The kinds of runs of a sheet in pieces, by how it stands behind the last step.
const RUNS: [&str; 6] = [
    "right so far",
    "wrong so far",
    "ended before",
    "read in one piece",
    "read in pieces",
    "read from a state",
];

/// The kinds of answer that an entry has: what it says where it does not refuse, and each refusal.
fn kinds_of_answer(entry: Entry) -> Vec<String> {
    let said: &[&str] = match entry.question() {
        Entry::OneRow => &["bound", "none"],
        Entry::OneProcessor => &["undecided", "miss", "fits"],
        Entry::Density => &DENSITIES,
        Entry::WriteResult | Entry::AnswerSheet => &["accepted", "not accepted"],
        Entry::ReadSheet => &LETTERS,
        Entry::Pieces => &RUNS,
        Entry::WriteSheet => &["done"],
        _ => &["all marked", "some marked", "none marked"],
    };
    let form: &[u32] = match entry {
        Entry::ReadSheet | Entry::AnswerSheet | Entry::Pieces => &[1],
        _ => &[],
    };
    let room: &[u32] = if entry == Entry::AnswerSheet {
        &[7]
    } else {
        &[]
    };
    let refusals = form
        .iter()
        .chain(applying(entry))
        .chain(room)
        .map(|number| format!("refusal {number}"));
    said.iter()
        .map(|said| said.to_string())
        .chain(refusals)
        .collect()
}

/// The kind of an answer.
fn kind_of_answer(call: &Call, seen: &Seen) -> String {
    if call.entry == Entry::Pieces {
        return kind_of_run(call, &seen.numbers);
    }
    if seen.numbers[0] != 0 {
        return format!("refusal {}", seen.numbers[0]);
    }
    let rows = row_count(call) as u32;
    let all = u64::MAX.checked_shr(64 - rows.min(64)).unwrap_or(0);
    match (call.entry.question(), seen.numbers[2]) {
        (Entry::OneRow, 0) => "none".to_string(),
        (Entry::OneRow, _) => "bound".to_string(),
        (Entry::OneProcessor, outcome) => {
            ["undecided", "miss", "fits"][outcome as usize % 3].to_string()
        }
        (Entry::Density, answer) => kind_of_density(call, answer),
        (Entry::WriteResult | Entry::AnswerSheet, _) => kind_of_text(&seen.after),
        (Entry::ReadSheet, _) => kind_of_letters(&call.text),
        (Entry::WriteSheet, _) => "done".to_string(),
        (_, 0) => "none marked".to_string(),
        (_, marks) if marks == all => "all marked".to_string(),
        _ => "some marked".to_string(),
    }
}

/// The kind of a run of a sheet in pieces: how it stands behind the last step.
fn kind_of_run(call: &Call, numbers: &[u64]) -> String {
    let ended = 4 + WORDS;
    let last = &numbers[numbers.len() - NUMBERS..];
    let is_piece = |step: &&Step| matches!(step, Step::Piece(_));
    let pieces = call.steps.iter().take_while(is_piece).count();
    let kind = match (last[ended], last[ended + 1]) {
        _ if numbers[ended] != 0 => "ended before",
        (0, _) if last[1] == 0 => "right so far",
        (0, _) => "wrong so far",
        (_, 0) if !call.state.is_empty() => "read from a state",
        (_, 0) if pieces == 1 => "read in one piece",
        (_, 0) => "read in pieces",
        (_, refusal) => return format!("refusal {refusal}"),
    };
    kind.to_string()
}

/// The kind of a density answer, by where the exact fractions lie.
fn kind_of_density(call: &Call, answer: u64) -> String {
    let test = test_of(call);
    let left = test.left_side();
    let is_near = test.is_within(&left, test.distance());
    let kind = match (answer, left.against(test.limit())) {
        (YES, Ordering::Equal) => "yes when even",
        (YES, Ordering::Less) if is_near => "yes near below",
        (YES, _) => "yes",
        (NO, Ordering::Greater) if is_near => "no near above",
        (NO, _) => "no",
        (UNSURE, Ordering::Less) => "unsure below",
        (UNSURE, Ordering::Equal) => "unsure when even",
        (UNSURE, Ordering::Greater) => "unsure above",
        _ => "no answer",
    };
    kind.to_string()
}

/// The kind of a sheet that was read, by the case of its letters.
fn kind_of_letters(text: &[u8]) -> String {
    let upper = text.iter().any(u8::is_ascii_uppercase);
    let lower = text.iter().any(u8::is_ascii_lowercase);
    LETTERS[upper as usize + 2 * lower as usize].to_string()
}

/// The kind of a result sheet or of a line that tells a refusal.
fn kind_of_text(text: &[u64]) -> String {
    let front: String = text
        .iter()
        .take(4)
        .map(|&byte| byte as u8 as char)
        .collect();
    match front.as_str() {
        "1101" => "accepted".to_string(),
        "1100" => "not accepted".to_string(),
        line => format!("refusal {}", line.trim_start_matches("1F0")),
    }
}
