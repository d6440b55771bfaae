//! Fixed cases: a call and the answer that is due.

use crate::difference::due_contents;
use crate::groups::entry_name;
use crate::lent::in_columns;
use guarded::made;
use second::answers::answer;
use second::call::{Answer, Call, Entry};
use second::checks::room_needed;
use second::program::Program;
use second::random::Random;

/// A case: its name, the call, and the numbers and contents that are due.
#[derive(Clone)]
pub struct Case {
    pub name: &'static str,
    pub call: Call,
    pub due: Answer,
}

impl Case {
    /// What is wrong with the proved program's answer, in words, if something is.
    pub fn proved_wrong(&self, random: &mut Random) -> Option<String> {
        let seen = made(&self.call, random);
        let contents = due_contents(&self.call, &seen.before, &self.due);
        let is_kept = seen.inputs_kept && seen.guards_kept;
        let is_right = self.are_due(&seen.numbers) && seen.after == contents && is_kept;
        (!is_right).then(|| self.told("proved program", &seen.numbers))
    }

    /// What is wrong with a second program's answer, in words, if something is.
    pub fn second_wrong(&self, program: &Program) -> Option<String> {
        let given = answer(program, &self.call);
        let due = Answer {
            numbers: given.numbers.clone(),
            ..self.due.clone()
        };
        let is_right = self.are_due(&given.numbers) && given == due;
        (!is_right).then(|| self.told("second program", &given.numbers))
    }

    /// Whether these are the numbers that are due; of a sheet in pieces those at the end of its last state, which tell the answer.
    fn are_due(&self, numbers: &[u64]) -> bool {
        match self.call.entry {
            Entry::Pieces => numbers.ends_with(&self.due.numbers),
            _ => numbers == self.due.numbers,
        }
    }

    /// A wrong answer in words.
    fn told(&self, who: &str, numbers: &[u64]) -> String {
        let title = self.title();
        let told = numbers.iter().rev().take(self.due.numbers.len()).rev();
        let told: Vec<&u64> = told.collect();
        format!("{title}: {who} {told:?}, due {:?}", self.due.numbers)
    }

    /// The case by its name and its entry.
    pub fn title(&self) -> String {
        format!("{} ({})", self.name, entry_name(self.call.entry))
    }

    /// The case with its rows in columns, where its entry has such a form.
    pub fn in_columns(&self) -> Option<Case> {
        let call = in_columns(&self.call)?;
        Some(Case {
            call,
            ..self.clone()
        })
    }
}

/// A call with nothing in it yet but its entry, rows and processors.
pub fn call(entry: Entry, words: &[u32], processors: u32) -> Call {
    Call {
        words: words.to_vec(),
        processors,
        room: room_needed(entry, words.len() / 3),
        ..Call::of(entry)
    }
}

/// A one-row case.
pub fn one_row(
    name: &'static str,
    words: &[u32],
    processors: u32,
    method: u32,
    bounds: &[u32],
    row: u32,
    bound: u64,
) -> Case {
    let asked = Call {
        method,
        bounds: bounds.to_vec(),
        row,
        ..call(Entry::OneRow, words, processors)
    };
    let due = Answer {
        numbers: vec![0, 0, bound],
        ..Answer::default()
    };
    Case {
        name,
        call: asked,
        due,
    }
}

/// A one-processor case: outcome 0 undecided, 1 miss, 2 fits.
pub fn one_processor(
    name: &'static str,
    words: &[u32],
    horizon: u32,
    outcome: u64,
    length: u64,
) -> Case {
    let asked = Call {
        horizon,
        ..call(Entry::OneProcessor, words, 1)
    };
    let due = Answer {
        numbers: vec![0, 0, outcome, length],
        ..Answer::default()
    };
    Case {
        name,
        call: asked,
        due,
    }
}

/// A density case: answer 0 unsure, 1 yes, 2 no.
pub fn density(name: &'static str, words: &[u32], processors: u32, answer: u64) -> Case {
    let due = Answer {
        numbers: vec![0, 0, answer],
        ..Answer::default()
    };
    Case {
        name,
        call: call(Entry::Density, words, processors),
        due,
    }
}

/// A refining case.
pub fn refined(
    name: &'static str,
    entry: Entry,
    words: &[u32],
    processors: u32,
    marks: u64,
    bounds: &[u32],
) -> Case {
    let due = Answer {
        numbers: vec![0, 0, marks],
        words: bounds.to_vec(),
        ..Answer::default()
    };
    Case {
        name,
        call: call(entry, words, processors),
        due,
    }
}

/// A case whose answer is a text.
pub fn written(name: &'static str, call: Call, text: &[u8]) -> Case {
    let due = Answer {
        numbers: vec![0, 0, text.len() as u64],
        text: text.to_vec(),
        ..Answer::default()
    };
    Case { name, call, due }
}
