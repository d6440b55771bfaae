//! The papers' acceptance experiment through the proved program.
//!
//! experiment FOLDER        as many task sets as the paper has: writes ACCEPTANCE.md and acceptance.svg into the folder
//! experiment FOLDER SETS   so many task sets an experiment: prints the page, and writes nothing unless it is the paper's number
//!
//! Exit status: 0, or 1 where a sentence of the page is not so, or 2 where it could not run. Standard error says why.

mod claims;
mod feasible;
mod plot;
mod sets;
mod table;

use sets::{Experiment, Tally};
use std::sync::atomic::{AtomicUsize, Ordering};

/// How many task sets each experiment of the paper looks at.
pub const SETS: u64 = 1_000_000;

/// The experiments: processors and mean utilisation.
const EXPERIMENTS: [Experiment; 6] = [
    Experiment {
        processors: 2,
        mean: 0.25,
    },
    Experiment {
        processors: 4,
        mean: 0.25,
    },
    Experiment {
        processors: 8,
        mean: 0.25,
    },
    Experiment {
        processors: 2,
        mean: 0.50,
    },
    Experiment {
        processors: 4,
        mean: 0.50,
    },
    Experiment {
        processors: 8,
        mean: 0.50,
    },
];

/// Runs one experiment, and says on standard error that it is done and how many are.
fn told(experiment: &Experiment, count: u64, done: &AtomicUsize) -> Result<Tally, String> {
    let tally = experiment.run(count)?;
    let place = done.fetch_add(1, Ordering::SeqCst) + 1;
    eprintln!(
        "acceptance: {place} of {} done: {}",
        EXPERIMENTS.len(),
        experiment.name()
    );
    Ok(tally)
}

/// Runs all experiments at once, each from its own seed; the first that breaks off says why.
fn all(count: u64) -> Result<Vec<(Experiment, Tally)>, String> {
    let done = AtomicUsize::new(0);
    std::thread::scope(|scope| {
        let running: Vec<_> = EXPERIMENTS
            .iter()
            .map(|experiment| scope.spawn(|| told(experiment, count, &done)))
            .collect();
        let tallies = running
            .into_iter()
            .map(|thread| thread.join().expect("an experiment"));
        let paired = EXPERIMENTS.iter().copied().zip(tallies);
        paired
            .map(|(experiment, tally)| Ok((experiment, tally?)))
            .collect()
    })
}

/// Writes the page and the picture into a folder.
fn write(folder: &str, results: &[(Experiment, Tally)]) -> std::io::Result<()> {
    std::fs::write(
        format!("{folder}/ACCEPTANCE.md"),
        table::page(results, SETS),
    )?;
    std::fs::write(format!("{folder}/acceptance.svg"), plot::plot(results))
}

/// What is said where sentences of the page are not so; of few task sets that they may be too few.
fn told_broken(broken: &[String], count: u64) -> String {
    let words = broken.join("\nacceptance: ");
    match count < SETS {
        true => format!("{words}\nacceptance: chance may do that with so few task sets: run it without a number"),
        false => words,
    }
}

/// Writes the page where its sentences are so, and prints it for another number of task sets than the paper's.
fn hand_out(folder: &str, results: &[(Experiment, Tally)], count: u64, broken: &[String]) {
    if count != SETS {
        print!("{}", table::page(results, count));
        eprintln!(
            "acceptance: {folder} stays as it is: its page has {} task sets",
            table::grouped(SETS)
        );
    } else if broken.is_empty() {
        let written = write(folder, results);
        written.unwrap_or_else(|why| give_up(&format!("the page could not be written: {why}"), 2));
    }
}

/// Ends with a reason and a status.
fn give_up(why: &str, status: i32) -> ! {
    eprintln!("acceptance: {why}");
    std::process::exit(status)
}

/// The folder and the number of task sets that are asked for, if the words say them.
fn asked(words: &[String]) -> Option<(&str, u64)> {
    match words {
        [folder] => Some((folder, SETS)),
        [folder, digits] => {
            let count = digits.parse().ok().filter(|&count: &u64| count > 0)?;
            Some((folder, count))
        }
        _ => None,
    }
}

fn main() {
    let words: Vec<String> = std::env::args().skip(1).collect();
    let Some((folder, count)) = asked(&words) else {
        give_up("experiment FOLDER [SETS]: SETS is a number above 0", 2)
    };
    let results = all(count).unwrap_or_else(|why| give_up(&why, 1));
    let broken = claims::broken(&results);
    hand_out(folder, &results, count, &broken);
    if !broken.is_empty() {
        give_up(&told_broken(&broken, count), 1);
    }
}
