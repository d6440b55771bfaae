//! What is measured: batches of questions, each with a name.

use crate::slow::{pair, GROWING_STEPS};
use second::random::Random;
use second::rows::{words_of, Row};
use sheets::exponential_row;
use sheets::families::never_decided;

/// A question to an entry.
#[derive(Clone, Debug)]
pub enum Question {
    AtOnce {
        words: Vec<u32>,
        processors: u32,
        method: u32,
    },
    Rounds {
        words: Vec<u32>,
        processors: u32,
        method: u32,
    },
    OneProcessor {
        words: Vec<u32>,
        horizon: u32,
    },
}

/// A batch of questions that is measured as one.
pub struct Case {
    pub name: String,
    pub questions: Vec<Question>,
}

impl Case {
    /// Whether it is a case of the one-processor test.
    pub fn is_one_processor(&self) -> bool {
        matches!(self.questions[0], Question::OneProcessor { .. })
    }
}

/// The largest horizon.
pub const HORIZON: u32 = 16_777_216;

/// Sheets of so many rows as in the papers' experiment, with every number so many times as large, on as many processors as
/// leave about three eighths of them free: then some rows are marked and some are not, and most sheets take several passes.
fn random_sheets(count: usize, rows: usize, scale: u64) -> Vec<(Vec<u32>, u32)> {
    let mut random = Random::of([rows as u64]);
    let mut draw = || {
        let row = |row: Row| Row {
            cost: row.cost * scale,
            deadline: row.deadline * scale,
            period: row.period * scale,
        };
        let rows: Vec<Row> = (0..rows)
            .map(|_| row(exponential_row(&mut random, 0.25)))
            .collect();
        let utilisation: f64 = rows
            .iter()
            .map(|row| row.cost as f64 / row.period as f64)
            .sum();
        (
            words_of(&rows),
            (utilisation * 1.6).ceil().clamp(1.0, 64.0) as u32,
        )
    };
    (0..count).map(|_| draw()).collect()
}

/// Random sheets refined at once by RTA.
fn refined(name: String, count: usize, rows: usize, scale: u64) -> Case {
    let question = |(words, processors)| Question::AtOnce {
        words,
        processors,
        method: 1,
    };
    Case {
        name,
        questions: random_sheets(count, rows, scale)
            .into_iter()
            .map(question)
            .collect(),
    }
}

/// Rows that never miss and have no busy length up to a horizon.
fn undecided(horizon: u32) -> Case {
    let question = Question::OneProcessor {
        words: words_of(&never_decided()),
        horizon,
    };
    Case {
        name: format!("five rows, horizon {horizon}, undecided"),
        questions: vec![question],
    }
}

/// Sheets of 64 light rows whose busy length is short.
fn short_busy_length() -> Case {
    let mut random = Random::of([64]);
    let mut row = || {
        let period = random.within(1_000, 100_000);
        Row {
            cost: random.within(1, period / 100),
            deadline: period,
            period,
        }
    };
    let mut sheet = || words_of(&(0..64).map(|_| row()).collect::<Vec<Row>>());
    let questions = (0..50)
        .map(|_| Question::OneProcessor {
            words: sheet(),
            horizon: HORIZON,
        })
        .collect();
    Case {
        name: "64 rows, short busy length".to_string(),
        questions,
    }
}

/// Sheets of eight rows that fill one processor nearly, with deadlines below their periods: misses and long busy lengths.
fn nearly_full() -> Case {
    let mut random = Random::of([8]);
    let mut row = || {
        let period = random.within(1_000, 100_000);
        Row {
            cost: period / 8 - random.within(0, 3),
            deadline: random.within(period * 9 / 10, period),
            period,
        }
    };
    let mut sheet = || words_of(&(0..8).map(|_| row()).collect::<Vec<Row>>());
    let questions = (0..10)
        .map(|_| Question::OneProcessor {
            words: sheet(),
            horizon: HORIZON,
        })
        .collect();
    Case {
        name: "8 rows that nearly fill the processor".to_string(),
        questions,
    }
}

/// The same sheets by another engine or method.
fn otherwise(case: Case, name: &str, rounds: bool, method: u32) -> Case {
    let change = |question: Question| match question {
        Question::AtOnce {
            words, processors, ..
        } if rounds => Question::Rounds {
            words,
            processors,
            method,
        },
        Question::AtOnce {
            words, processors, ..
        } => Question::AtOnce {
            words,
            processors,
            method,
        },
        other => other,
    };
    Case {
        name: name.to_string(),
        questions: case.questions.into_iter().map(change).collect(),
    }
}

/// The cases that are held against the same method in Rust.
pub fn against_rust() -> Vec<Case> {
    let at_once = |rows: usize, count: usize| {
        refined(format!("{rows} random rows, RTA at once"), count, rows, 1)
    };
    vec![
        at_once(8, 400),
        at_once(16, 200),
        at_once(64, 20),
        refined(
            "8 random rows of large numbers, RTA at once".to_string(),
            200,
            8,
            500,
        ),
        otherwise(at_once(16, 200), "16 random rows, RTA in rounds", true, 1),
        otherwise(at_once(64, 20), "64 random rows, BCL at once", false, 0),
        pair(50),
        pair(200),
        short_busy_length(),
        nearly_full(),
        undecided(HORIZON),
    ]
}

/// The cases that show how cost grows: with rows, with the numbers, with passes, with the horizon.
pub fn growing() -> Vec<(&'static str, Vec<Case>)> {
    let rows = [4, 8, 16, 32, 64].map(|rows| refined(format!("{rows} rows"), 20, rows, 1));
    let scales = [1, 10, 100, 500]
        .map(|scale| refined(format!("periods up to {}", 2000 * scale), 20, 8, scale));
    let steps = GROWING_STEPS.map(pair);
    let horizons = [14, 16, 18, 20, 22, 24].map(|power| undecided(1 << power));
    vec![
        ("RTA at once, random sheets, by rows", rows.into()),
        (
            "RTA at once, 8 random rows, by the size of their numbers",
            scales.into(),
        ),
        (
            "RTA at once, two rows that need many passes, by D",
            steps.into(),
        ),
        ("One processor, undecided, by the horizon", horizons.into()),
    ]
}
