//! What the page says of the curves in words, held against the curves.

use crate::sets::{Experiment, Tally, RANGES};

/// The part of all ranges' sets that is accepted.
pub fn part(accepted: &[u64; RANGES], total: &[u64; RANGES]) -> f64 {
    accepted.iter().sum::<u64>() as f64 / total.iter().sum::<u64>().max(1) as f64
}

/// The last range up to which at least half of the sets are accepted.
pub fn half_point(accepted: &[u64; RANGES], total: &[u64; RANGES]) -> f64 {
    let fails = |&range: &usize| total[range] > 0 && 2 * accepted[range] < total[range];
    (0..RANGES).find(fails).unwrap_or(RANGES) as f64 / RANGES as f64
}

/// Whether no range has fewer of the one than of the other.
fn covers(one: &[u64; RANGES], other: &[u64; RANGES]) -> bool {
    one.iter().zip(other).all(|(a, b)| a >= b)
}

/// The part of the sets in some ranges that is accepted.
fn part_within(accepted: &[u64], total: &[u64]) -> f64 {
    accepted.iter().sum::<u64>() as f64 / total.iter().sum::<u64>().max(1) as f64
}

/// A part in percent, in words.
fn percent(part: f64) -> String {
    format!("{:.1} %", 100.0 * part)
}

/// What is not so of one experiment.
fn broken_in_one(experiment: &Experiment, tally: &Tally) -> Vec<String> {
    let low = part_within(&tally.rta[..6], &tally.total[..6]);
    let high = part_within(&tally.rta[RANGES - 2..], &tally.total[RANGES - 2..]);
    let said = [
        (
            covers(&tally.total, &tally.rta) && covers(&tally.rta, &tally.bcl),
            "the curves are not in the order TOT, RTA, BCL".to_string(),
        ),
        (
            low > 0.9,
            format!("up to a quarter of full use RTA accepts {} of the sets, and not more than nine of ten", percent(low)),
        ),
        (
            high < 0.01,
            format!("above 92 % of m RTA accepts {} of the sets, and not fewer than one in a hundred", percent(high)),
        ),
    ];
    let broken = said.into_iter().filter(|(holds, _)| !holds);
    broken
        .map(|(_, words)| format!("{}: {words}", experiment.name()))
        .collect()
}

/// What is not so of a step to more processors at the same mean.
fn broken_between(few: &(Experiment, Tally), many: &(Experiment, Tally)) -> Vec<String> {
    let rta = |tally: &Tally| part(&tally.rta, &tally.total);
    let bcl = |tally: &Tally| part(&tally.bcl, &tally.rta);
    let mut broken = Vec::new();
    for (what, less, more) in [
        ("RTA of TOT", rta(&few.1), rta(&many.1)),
        ("BCL of RTA", bcl(&few.1), bcl(&many.1)),
    ] {
        if less <= more {
            broken.push(format!(
                "{what} does not fall from {} to {} processors at mean {:.2}: {}, then {}",
                few.0.processors,
                many.0.processors,
                few.0.mean,
                percent(less),
                percent(more)
            ));
        }
    }
    broken
}

/// What is not so of the step from mean 0.25 to mean 0.50 at the same number of processors.
fn broken_across(low: &(Experiment, Tally), high: &(Experiment, Tally)) -> Vec<String> {
    let half = |tally: &Tally| half_point(&tally.rta, &tally.total);
    let bcl = |tally: &Tally| part(&tally.bcl, &tally.rta);
    let mut broken = Vec::new();
    if half(&high.1) < half(&low.1) {
        broken.push(format!("{} processors: RTA accepts half of the sets up to a lower utilisation at mean 0.50 than at mean 0.25", low.0.processors));
    }
    if bcl(&high.1) >= bcl(&low.1) {
        broken.push(format!(
            "{} processors: BCL is not further below RTA at mean 0.50 than at mean 0.25",
            low.0.processors
        ));
    }
    broken
}

/// What is not so of two processors at mean 0.25, where BCL is close to RTA.
fn broken_on_two(tally: &Tally) -> Vec<String> {
    match part(&tally.bcl, &tally.rta) {
        close if (0.85..0.95).contains(&close) => Vec::new(),
        far => vec![format!("2 processors, mean utilisation 0.25: BCL accepts {} of the sets that RTA accepts, and not about nine of ten", percent(far))],
    }
}

/// The sentences of the page that are not true of the results, each as what is so instead.
pub fn broken(results: &[(Experiment, Tally)]) -> Vec<String> {
    let each = results
        .iter()
        .flat_map(|(one, tally)| broken_in_one(one, tally));
    let steps = results
        .windows(2)
        .filter(|pair| pair[0].0.mean == pair[1].0.mean)
        .flat_map(|pair| broken_between(&pair[0], &pair[1]));
    let across = results
        .iter()
        .zip(&results[3..])
        .flat_map(|(low, high)| broken_across(low, high));
    each.chain(steps)
        .chain(across)
        .chain(broken_on_two(&results[0].1))
        .collect()
}
