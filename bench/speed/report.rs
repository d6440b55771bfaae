//! The report: tables of ratios, and what bounds the cost.

use crate::agreement::hold_together;
use crate::cases::{against_rust, growing, Case};
use crate::counting::instructions;
use crate::divisions;
use crate::sides::{measured, Side};
use crate::slow::{against_plain, at_full_size};
use crate::timing::{ratio, under_a_second};

/// Where `bench/climb --write` puts what it found.
const CLIMBED: &str = "bench/speed/climbed.md";

/// A number as a table shows it, with more digits where it is small.
fn shown(number: Option<f64>) -> String {
    let digits = |number: f64| if number < 0.1 { 4 } else { 2 };
    number.map_or("".to_string(), |number| {
        format!("{number:.*}", digits(number))
    })
}

/// Breaks off where another side answers a case otherwise than the proved program.
fn hold_against(case: &Case, other: Side) {
    let proved = measured(case, Side::Proved);
    assert_eq!(proved, measured(case, other), "{}", case.name);
}

/// One case against Rust: time and instructions of the other side over the proved program's.
fn against_rust_line(index: usize, case: &Case) -> String {
    hold_against(case, Side::Rust);
    let proved = instructions(index, "proved");
    let rust = instructions(index, "rust");
    let counted = proved.and_then(|proved| rust.map(|rust| rust / proved));
    format!(
        "| {} | {:.2} | {} |\n",
        case.name,
        ratio(case, Side::Rust),
        shown(counted)
    )
}

/// One case of the one-processor test against the length-by-length loop.
fn against_lengths_line(case: &Case) -> String {
    hold_against(case, Side::Lengths);
    format!("| {} | {:.1} |\n", case.name, ratio(case, Side::Lengths))
}

/// One slow case against the plain method.
fn against_plain_line(case: &Case) -> String {
    hold_against(case, Side::Plain);
    format!("| {} | {:.1} |\n", case.name, ratio(case, Side::Plain))
}

/// One slow case at full size: time and instructions against the same method in Rust, the proved program's instructions in
/// millions, and whether it takes less than a second.
fn full_size_line(index: usize, case: &Case) -> String {
    hold_against(case, Side::Rust);
    let proved = instructions(index, "proved");
    let rust = instructions(index, "rust");
    let counted = proved.and_then(|proved| rust.map(|rust| rust / proved));
    format!(
        "| {} | {:.2} | {} | {} | {} |\n",
        case.name,
        ratio(case, Side::Rust),
        shown(counted),
        shown(proved),
        if under_a_second(case) { "yes" } else { "no" }
    )
}

/// A table of cases that grow: instructions in millions, and how many times the line above.
fn growth_table(first: usize, title: &str, cases: &[Case]) -> String {
    let mut table = format!(
        "\n### {title}\n\n| case | million instructions | times the line above |\n|---|---|---|\n"
    );
    let mut before = None;
    for (offset, case) in cases.iter().enumerate() {
        let counted = instructions(first + offset, "proved");
        let times = counted.and_then(|now| before.map(|before: f64| now / before));
        table += &format!(
            "| {} | {} | {} |\n",
            case.name,
            shown(counted),
            shown(times)
        );
        before = counted;
    }
    table
}

/// A part of the report, shown as it comes.
fn told(part: String) -> String {
    eprint!("{part}");
    part
}

/// The section on the slow families, whose first case has a number.
fn slow_section(first: usize) -> String {
    let mut text = include_str!("slow.md").to_string();
    for case in against_plain() {
        text += &told(against_plain_line(&case));
    }
    text += include_str!("full_size.md");
    for (offset, case) in at_full_size().iter().enumerate() {
        text += &told(full_size_line(first + offset, case));
    }
    text + &std::fs::read_to_string(CLIMBED).unwrap_or_default()
}

/// The section on how cost grows, whose first case has a number.
fn growth_section(mut first: usize) -> String {
    let mut text = include_str!("growth.md").to_string();
    for (title, cases) in growing() {
        text += &told(growth_table(first, title, &cases));
        first += cases.len();
    }
    text
}

/// Prints the first table alone, line by line as it comes.
pub fn print_short() {
    println!("| case | time | instructions |\n|---|---|---|");
    for (index, case) in against_rust().iter().enumerate() {
        print!("{}", against_rust_line(index, case));
    }
}

/// The whole report.
pub fn report() -> String {
    hold_together();
    let cases = against_rust();
    let mut text = include_str!("head.md").to_string();
    for (index, case) in cases.iter().enumerate() {
        text += &told(against_rust_line(index, case));
    }
    text += include_str!("lengths.md");
    for case in cases.iter().filter(|case| case.is_one_processor()) {
        text += &told(against_lengths_line(case));
    }
    text += &slow_section(cases.len());
    text += &growth_section(cases.len() + at_full_size().len());
    text += &told(divisions::section());
    text + include_str!("bounds.md")
}
