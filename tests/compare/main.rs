//! Holds the proved program, through its C face, against the second program.
//!
//! compare [--cases N] [--seed S]          every entry on N random calls or a few more
//! compare --wrong [--cases N] [--seed S]  every wrong second program must be caught within as many

mod calls;
mod cases;
mod catch;
mod cuts;
mod damage;
mod densities;
mod difference;
mod exact;
mod far;
mod fewer;
mod groups;
mod hinges;
mod lengths;
mod lent;
mod letters;
mod made_up;
mod natural;
mod near;
mod pieces;
mod relations;
mod rounds;
mod run;
mod show;
mod shrink;
mod sightings;
mod slow;
mod spoil;
mod threads;
mod trial;
mod unequal;
mod widen;
mod worked;
mod worked_pieces;
mod wrong;

use groups::Group;
use guarded::CALLS;
use second::call::Entry;
use second::program::DOCUMENT;
use second::random::Random;
use std::process::ExitCode;
use std::sync::atomic::Ordering;
use threads::of_each;

/// How many checks the gate makes.
const GATE_CASES: u64 = 595_000;

/// The gate's seed.
const GATE_SEED: u64 = 1;

/// What the command line asks for.
struct Asked {
    cases: u64,
    seed: u64,
    wrong: bool,
}

/// The command line read, or what is wrong with it.
fn asked(mut words: impl Iterator<Item = String>) -> Result<Asked, String> {
    let mut asked = Asked {
        cases: GATE_CASES,
        seed: GATE_SEED,
        wrong: false,
    };
    let number = |word: Option<String>| word.and_then(|digits| digits.parse::<u64>().ok());
    while let Some(word) = words.next() {
        match word.as_str() {
            "--wrong" => asked.wrong = true,
            "--cases" => asked.cases = number(words.next()).ok_or("--cases wants a number")?,
            "--seed" => asked.seed = number(words.next()).ok_or("--seed wants a number")?,
            _ => {
                return Err(format!(
                    "'{word}' is not known: [--wrong] [--cases N] [--seed S]"
                ))
            }
        }
    }
    Ok(asked)
}

/// One group: it passes where it found nothing, and else says what.
fn one_group(what: &str, found: Vec<String>) -> (usize, usize) {
    found.iter().for_each(|line| println!("{what} {line}"));
    if found.is_empty() {
        (1, 0)
    } else {
        (0, 1)
    }
}

/// The sum of what some groups passed and failed.
fn sum(parts: &[(usize, usize)]) -> (usize, usize) {
    let add = |one: (usize, usize), other: &(usize, usize)| (one.0 + other.0, one.1 + other.1);
    parts.iter().fold((0, 0), add)
}

/// One group: it passes where there is no difference, and else says which.
fn no_difference(found: Option<String>) -> (usize, usize) {
    one_group("DIFFERENCE", found.into_iter().collect())
}

/// Everything compared: the numbers worked by hand, the cases far out, every text near a sheet's, columns of every combination of
/// lengths, random calls, and that all kinds of answer were met and slow sheets are slow.
fn compare_all(all: &[Group], cases: u64, seed: u64) -> (usize, usize) {
    let near = |entry: &Entry| no_difference(near::first_difference(&DOCUMENT, *entry));
    let unequal = |entry| no_difference(unequal::first_difference(&DOCUMENT, entry));
    let parts = [
        one_group(
            "WORKED BY HAND",
            worked::wrong_cases(&mut Random::of([seed])),
        ),
        one_group("FAR OUT", far::wrong_cases(seed)),
        sum(&of_each(&wrong::READING, near)),
        sum(&lent::BY_COLUMNS.map(unequal)),
        run::compare(all, rounds::how_many(all, cases), seed),
        one_group("NEVER MET", sightings::never_met()),
        one_group("TOO QUICK", slow::too_quick(seed).into_iter().collect()),
    ];
    println!("{} calls, seed {seed}", CALLS.load(Ordering::Relaxed));
    sum(&parts)
}

/// Compares or tests the comparison, and says how many groups passed and failed.
fn main() -> ExitCode {
    let asked = match asked(std::env::args().skip(1)) {
        Ok(asked) => asked,
        Err(what) => {
            eprintln!("compare: {what}");
            return ExitCode::from(2);
        }
    };
    let all = groups::every_group();
    let (passed, failed) = if asked.wrong {
        catch::catch_all(&all, asked.cases, asked.seed)
    } else {
        compare_all(&all, asked.cases, asked.seed)
    };
    println!("{passed} passed, {failed} failed");
    if failed == 0 {
        ExitCode::SUCCESS
    } else {
        ExitCode::FAILURE
    }
}
