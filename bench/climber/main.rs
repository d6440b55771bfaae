//! A hill climber that looks for sheets that the proved program is slow on.
//!
//! climber SECONDS [SEED] [--write]   climbs, and tells the slowest sheet of each entry; --write puts them in the bench's page
//! climber --evaluate                 answers candidates, one a line, by the time that each takes; started by the climber itself

#[path = "../speed/clock.rs"]
mod clock;

mod candidate;
mod change;
mod climb;
mod evaluate;
mod found;
mod limited;
mod start;

use std::process::ExitCode;
use std::time::Duration;

/// What the command line asks for.
struct Asked {
    time: Duration,
    seed: u64,
    write: bool,
}

/// The command line read; none where it is wrong.
fn asked(words: &[String]) -> Option<Asked> {
    let (flags, numbers): (Vec<&String>, Vec<&String>) =
        words.iter().partition(|word| word.starts_with("--"));
    let number = |word: &&String| word.parse::<u64>().ok();
    let numbers: Vec<u64> = numbers.iter().map(number).collect::<Option<_>>()?;
    let known = flags.iter().all(|flag| *flag == "--write");
    let (seconds, seed) = match numbers[..] {
        [seconds] => (seconds, 1),
        [seconds, seed] => (seconds, seed),
        _ => return None,
    };
    known.then_some(Asked {
        time: Duration::from_secs(seconds),
        seed,
        write: !flags.is_empty(),
    })
}

fn main() -> ExitCode {
    let words: Vec<String> = std::env::args().skip(1).collect();
    if words == ["--evaluate"] {
        evaluate::answer_all();
        return ExitCode::SUCCESS;
    }
    let Some(asked) = asked(&words) else {
        eprintln!("bench/climb SECONDS [SEED] [--write]");
        return ExitCode::from(2);
    };
    let found = climb::climb(asked.time, asked.seed);
    found.tell();
    if asked.write {
        found.write(asked.time, asked.seed);
    }
    ExitCode::SUCCESS
}
