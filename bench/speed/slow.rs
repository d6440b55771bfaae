//! The slow families: sheets that keep the plain method busy for long.

use crate::cases::{Case, Question, HORIZON};
use second::rows::{words_of, Row, Sheet};
use sheets::families::{
    climbing_pair, crowded_pair, every_length_due, full_and_one, halves, late_miss, nearly_one,
    never_decided, unit_fractions,
};

/// Whether the families are measured at full size. That ends only where the proved program is the quick one.
const FULL_SIZE: bool = true;

/// The small periods of the unit fractions: together they leave 1/1806 of a processor.
const FOUR_PERIODS: [u64; 4] = [2, 3, 7, 43];

/// The same and one more, which leave about a sixteenth of that.
const FIVE_PERIODS: [u64; 5] = [2, 3, 7, 43, 2068];

/// The steps of the pair that show how cost grows with the size of its numbers.
pub const GROWING_STEPS: [u64; 4] = if FULL_SIZE {
    [200, 2_000, 20_000, 199_999]
} else {
    [25, 50, 100, 200]
};

/// A sheet refined at once by RTA, as a case of its own.
fn refined(name: String, sheet: Sheet) -> Case {
    let question = Question::AtOnce {
        words: words_of(&sheet.rows),
        processors: sheet.processors as u32,
        method: 1,
    };
    Case {
        name,
        questions: vec![question],
    }
}

/// Rows on one processor up to a horizon, as a case of its own.
fn on_one_processor(name: &str, rows: Vec<Row>, horizon: u32) -> Case {
    let question = Question::OneProcessor {
        words: words_of(&rows),
        horizon,
    };
    Case {
        name: format!("{name}, horizon {horizon}"),
        questions: vec![question],
    }
}

/// The pair whose bounds fall by one.
pub fn pair(step: u64) -> Case {
    let rows = climbing_pair(step);
    let shown = |row: &Row| format!("({},{},{})", row.cost, row.deadline, row.period);
    let name = format!("two rows, {} and {}", shown(&rows[0]), shown(&rows[1]));
    refined(
        name,
        Sheet {
            rows,
            processors: 1,
        },
    )
}

/// The pair in a crowd, given up at once or, raised, refined over many passes.
fn crowded(step: u64, raised: u64) -> Case {
    let what = if raised == 0 { "given up" } else { "refined" };
    let name = format!("the pair of step {step} among 62 rows, {what}");
    refined(name, crowded_pair(step, 31, raised))
}

/// The families that are refined, with the steps of the pair, alone and in a crowd, and the long period.
fn refined_families(steps: &[u64], crowd: &[u64], long: u64) -> Vec<Case> {
    let alone = steps.iter().map(|&step| pair(step));
    let crowded = crowd
        .iter()
        .flat_map(|&step| [crowded(step, 0), crowded(step, 62)]);
    let dense = [
        refined(
            format!("32 x (1,2,2) and 32 x (1,{long},{long})"),
            halves(32, long),
        ),
        refined(
            format!("periods 2, 3, 7, 43 and 60 of about {long}"),
            unit_fractions(&FOUR_PERIODS, 60, long),
        ),
        refined(
            format!("periods 2, 3, 7, 43, 2068 and 59 of about {long}"),
            unit_fractions(&FIVE_PERIODS, 59, long),
        ),
    ];
    alone.chain(crowded).chain(dense).collect()
}

/// The families of the one-processor test, with the long period and the horizon.
fn demand_families(long: u64, horizon: u32) -> Vec<Case> {
    vec![
        on_one_processor(
            &format!("(1,1,1) and (1,{long},{long})"),
            full_and_one(long),
            horizon,
        ),
        on_one_processor(
            "64 rows, a deadline at every length",
            every_length_due(63, long),
            horizon,
        ),
        on_one_processor(
            "five rows of utilisation 1, undecided",
            never_decided(),
            horizon,
        ),
        on_one_processor(
            "five rows of utilisation just below 1",
            nearly_one(long),
            horizon,
        ),
        on_one_processor(
            "four rows of utilisation just above 1, a late miss",
            late_miss(),
            horizon,
        ),
    ]
}

/// The families at sizes where the plain method ends within a few seconds.
pub fn against_plain() -> Vec<Case> {
    let refined = if FULL_SIZE {
        refined_families(&[1_000, 4_000], &[300], 1_000_000)
    } else {
        refined_families(&[100, 200], &[50], 1_000)
    };
    let long = if FULL_SIZE { 1_000_000 } else { 10_000 };
    let horizon = if FULL_SIZE { HORIZON } else { 20_000 };
    refined
        .into_iter()
        .chain(demand_families(long, horizon))
        .collect()
}

/// The families at full size.
pub fn at_full_size() -> Vec<Case> {
    if !FULL_SIZE {
        return against_plain();
    }
    refined_families(&[1_000, 10_000, 199_999], &[10_000, 199_980], 1_000_000)
        .into_iter()
        .chain(demand_families(1_000_000, HORIZON))
        .collect()
}
