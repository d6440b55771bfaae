//! How often a call of the one-processor test divides: the same method in Rust, compiled with a divide that counts.

use crate::cases::{against_rust, Case, Question};
use crate::divide::{Counted, Divisions};
use crate::quick;
use crate::slow::at_full_size;

/// The divisions of all calls of a case. It breaks off where the proved program answers one otherwise.
fn divisions(case: &Case) -> Divisions {
    for question in &case.questions {
        if let Question::OneProcessor { words, horizon } = question {
            let counted = quick::one_processor_by::<Counted>(words, *horizon);
            let proved = guarded::one_processor(words, *horizon);
            assert_eq!(counted, proved, "{}", case.name);
        }
    }
    Counted::taken()
}

/// One case: the divisions of a call, of the busy climb, of the looks while each row that is due was divided for, and of the
/// looks now.
fn line(case: &Case) -> String {
    let counted = divisions(case);
    let of_a_call = |all: u64| (all as f64 / case.questions.len() as f64).round();
    format!(
        "| {} | {} | {} | {} |\n",
        case.name,
        of_a_call(counted.climb),
        of_a_call(counted.looks + counted.spared),
        of_a_call(counted.looks)
    )
}

/// The section on divisions.
pub fn section() -> String {
    let cases = against_rust().into_iter().chain(at_full_size());
    let lines = cases.filter(Case::is_one_processor).map(|case| line(&case));
    include_str!("divisions.md").to_string() + &lines.collect::<String>()
}
