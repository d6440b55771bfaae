//! A candidate: an entry and what it is asked.

use second::rows::Row;
use sheets::rows_shown;

/// The entries that are looked at.
#[derive(Clone, Copy, PartialEq, Eq, Debug)]
pub enum Entry {
    BclAtOnce,
    RtaAtOnce,
    ResultSheet,
    OneProcessor,
}

/// Every entry, by its name in words.
pub const ENTRIES: [(Entry, &str); 4] = [
    (Entry::BclAtOnce, "BCL at once"),
    (Entry::RtaAtOnce, "RTA at once"),
    (Entry::ResultSheet, "result sheet"),
    (Entry::OneProcessor, "one processor"),
];

/// A candidate. An entry looks at the processors or at the horizon.
#[derive(Clone, PartialEq, Eq, Debug)]
pub struct Candidate {
    pub entry: usize,
    pub processors: u32,
    pub horizon: u32,
    pub rows: Vec<Row>,
}

impl Candidate {
    /// The entry asked.
    pub fn entry(&self) -> Entry {
        ENTRIES[self.entry].0
    }

    /// The rows' words.
    pub fn words(&self) -> Vec<u32> {
        second::rows::words_of(&self.rows)
    }

    /// The candidate as a line of numbers.
    pub fn line(&self) -> String {
        let front = [self.entry as u32, self.processors, self.horizon];
        let numbers = front.into_iter().chain(self.words());
        let shown: Vec<String> = numbers.map(|number| number.to_string()).collect();
        shown.join(" ")
    }

    /// The candidate that a line of numbers says.
    pub fn of_line(line: &str) -> Option<Candidate> {
        let number = |word: &str| word.parse::<u32>().ok();
        let numbers: Vec<u32> = line.split(' ').map(number).collect::<Option<_>>()?;
        let (front, words) = numbers.split_at_checked(3)?;
        Some(Candidate {
            entry: front[0] as usize,
            processors: front[1],
            horizon: front[2],
            rows: words.chunks_exact(3).map(second::rows::row_of).collect(),
        })
    }

    /// What is asked beside the rows, in words.
    pub fn asked_shown(&self) -> String {
        match self.entry() {
            Entry::OneProcessor => format!("horizon {}", self.horizon),
            _ => format!("processors {}", self.processors),
        }
    }

    /// The rows, in words.
    pub fn rows_shown(&self) -> String {
        rows_shown(&self.words())
    }
}
