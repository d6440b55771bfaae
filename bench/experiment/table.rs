//! The page: how the experiment was run, what it gave, and how that stands beside the papers' text.

use crate::claims::{half_point, part};
use crate::sets::{Experiment, Tally, RANGES};
use crate::SETS;

/// A number with a comma before each three digits.
pub fn grouped(number: u64) -> String {
    match number {
        0..=999 => number.to_string(),
        _ => format!("{},{:03}", grouped(number / 1000), number % 1000),
    }
}

/// The sum over all ranges.
fn sum(counts: &[u64; RANGES]) -> u64 {
    counts.iter().sum()
}

/// A part of a whole in percent.
fn percent(part: u64, whole: u64) -> f64 {
    100.0 * part as f64 / whole.max(1) as f64
}

/// The totals of every experiment, and up to which utilisation a test accepts at least half of the sets.
fn totals(results: &[(Experiment, Tally)]) -> String {
    let heads = "| m | mean | TOT | RTA | BCL | RTA of TOT | BCL of RTA | RTA accepts half up to | BCL accepts half up to |\n";
    let mut table = format!("{heads}|---|---|---|---|---|---|---|---|---|\n");
    for (experiment, tally) in results {
        let m = experiment.processors as f64;
        table += &format!(
            "| {m} | {:.2} | {} | {} | {} | {:.1} % | {:.1} % | {:.2} | {:.2} |\n",
            experiment.mean,
            grouped(sum(&tally.total)),
            grouped(sum(&tally.rta)),
            grouped(sum(&tally.bcl)),
            100.0 * part(&tally.rta, &tally.total),
            100.0 * part(&tally.bcl, &tally.rta),
            m * half_point(&tally.rta, &tally.total),
            m * half_point(&tally.bcl, &tally.total),
        );
    }
    table
}

/// One experiment's cell in one range: sets, and the percentages that RTA and BCL accept.
fn cell(tally: &Tally, range: usize) -> String {
    match tally.total[range] {
        0 => String::new(),
        total => format!(
            "{}: {:.1} / {:.1}",
            grouped(total),
            percent(tally.rta[range], total),
            percent(tally.bcl[range], total)
        ),
    }
}

/// Acceptance by range of total utilisation, all experiments side by side.
fn by_utilisation(results: &[(Experiment, Tally)]) -> String {
    let heads: Vec<String> = results
        .iter()
        .map(|(experiment, _)| format!("m = {}, {:.2}", experiment.processors, experiment.mean))
        .collect();
    let mut table = format!(
        "| total utilisation / m | {} |\n|---|{}\n",
        heads.join(" | "),
        "---|".repeat(results.len())
    );
    for range in 0..RANGES {
        let cells: Vec<String> = results
            .iter()
            .map(|(_, tally)| cell(tally, range))
            .collect();
        if cells.iter().any(|cell| !cell.is_empty()) {
            let from = range as f64 / RANGES as f64;
            table += &format!(
                "| {from:.2} to {:.2} | {} |\n",
                from + 1.0 / RANGES as f64,
                cells.join(" | ")
            );
        }
    }
    table
}

/// The whole page.
pub fn page(results: &[(Experiment, Tally)], count: u64) -> String {
    let sets = match count {
        SETS => ", as in the paper".to_string(),
        _ => format!("; the paper has {}", grouped(SETS)),
    };
    let sets = format!("{} task sets an experiment{sets}", grouped(count));
    let words = include_str!("words.md").replace("{sets}", &sets);
    words
        .replace("{totals}\n", &totals(results))
        .replace("{by utilisation}\n", &by_utilisation(results))
}
