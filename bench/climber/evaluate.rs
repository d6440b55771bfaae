//! The side that evaluates: candidates come in by lines, and the processor time of each goes out.

use crate::candidate::{Candidate, Entry};
use crate::clock::used;
use std::hint::black_box;
use std::io::{stdin, stdout, BufRead, Write};
use std::time::Duration;

/// A candidate that takes less is run again, and the least time counts.
const SHORT: Duration = Duration::from_millis(50);

/// How often a short candidate is run.
const RUNS: usize = 3;

/// Asks the proved program.
fn ask(candidate: &Candidate, words: &[u32]) {
    let (mut bounds, mut text) = ([0; 64], [0; 711]);
    let processors = candidate.processors;
    match candidate.entry() {
        Entry::BclAtOnce => {
            black_box(guarded::refine_at_once(words, processors, 0, &mut bounds));
        }
        Entry::RtaAtOnce => {
            black_box(guarded::refine_at_once(words, processors, 1, &mut bounds));
        }
        Entry::ResultSheet => {
            black_box(guarded::write_result(words, processors, 1, &mut text));
        }
        Entry::OneProcessor => {
            black_box(guarded::one_processor(words, candidate.horizon));
        }
    }
}

/// The processor time of a candidate.
fn time_of(candidate: &Candidate) -> Duration {
    let words = candidate.words();
    let mut least = Duration::MAX;
    for _ in 0..RUNS {
        let before = used();
        ask(candidate, black_box(&words));
        least = least.min(used() - before);
        if least > SHORT {
            break;
        }
    }
    least
}

/// Answers every line by the nanoseconds that its candidate takes, until there is no line more.
pub fn answer_all() {
    for line in stdin().lock().lines().map_while(Result::ok) {
        let Some(candidate) = Candidate::of_line(&line) else {
            return;
        };
        println!("{}", time_of(&candidate).as_nanos());
        let _ = stdout().flush();
    }
}
