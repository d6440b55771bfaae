//! Measures the proved program against the same methods in Rust, and writes docs/BENCHMARKS.md to its output.
//!
//! speed            times and instructions of every case, and divisions
//! speed short      the first table alone
//! speed divisions  the section on divisions alone
//! speed N SIDE     answers case N by a side once, for the instruction counter

mod agreement;
mod cases;
mod clock;
mod counting;
mod divide;
mod divisions;
mod lengths;
mod plain;
mod quick;
mod report;
mod sides;
mod slow;
mod timing;

use cases::Case;
use sides::Side;

/// Every case whose instructions are counted, in one list: those against Rust, the slow families, and those that grow.
fn all_cases() -> Vec<Case> {
    let growing = cases::growing().into_iter().flat_map(|(_, cases)| cases);
    cases::against_rust()
        .into_iter()
        .chain(slow::at_full_size())
        .chain(growing)
        .collect()
}

/// A side by its name.
fn side_named(name: &str) -> Side {
    match name {
        "proved" => Side::Proved,
        _ => Side::Rust,
    }
}

fn main() {
    let words: Vec<String> = std::env::args().collect();
    match words.as_slice() {
        [_, index, side] => {
            let cases = all_cases();
            let index: usize = index.parse().expect("a case's number");
            println!("{}", sides::measured(&cases[index], side_named(side)));
        }
        [_, word] if word == "short" => report::print_short(),
        [_, word] if word == "divisions" => print!("{}", divisions::section()),
        _ => print!("{}", report::report()),
    }
}
