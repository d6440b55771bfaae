//! Fixed cases of the density test: answers that hinge on one billionth or on the place of the largest row, sums at the ends of what
//! the sizes allow, and refusals.
//!
//! Their answers were worked out once by a plain script that has exact fractions, and rounds and adds those; the rows whose sums,
//! rounded, come to the limit or to a billionth more were searched for by it.

use crate::cases::{call, density, Case};
use crate::densities::{NO, UNSURE, YES};
use crate::far::{asked_of_both, Far};
use crate::wrong::density_slip;
use second::call::{Answer, Entry};

/// The largest number that a row may have.
const MOST: u32 = 1_000_000;

/// A case, and the slips by their names that it must show.
fn showing(case: Case, slips: &[&str]) -> Far {
    let slips: Vec<_> = slips.iter().map(|name| density_slip(name)).collect();
    asked_of_both(case, &slips)
}

/// Two rows on one processor: rounded up they come to 1,000,000,000 and to one more, rounded down to 1,000,000,000 and to one more.
fn on_one_processor() -> Vec<Far> {
    let with = |cost: u32, deadline: u32| [271_828, 999_983, 999_983, cost, deadline, deadline];
    vec![
        showing(
            density("yes at the limit", &with(727_638, 999_273), 1, YES),
            &["says yes only below the limit", "works in millionths"],
        ),
        showing(
            density("unsure when even", &with(728_155, 999_983), 1, UNSURE),
            &[
                "says yes a billionth above the limit",
                "rounds the sum in place of each density",
            ],
        ),
        showing(
            density("unsure at the limit", &with(726_971, 998_357), 1, UNSURE),
            &["says no at the limit", "judges by the exact fractions"],
        ),
        showing(
            density("no a billionth above", &with(728_080, 999_880), 1, NO),
            &[
                "says no two billionths above the limit only",
                "says unsure where it is no",
            ],
        ),
    ]
}

/// The largest row and the smallest of the three below.
const LARGEST: [u32; 3] = [628_318, 999_979, MOST];
const SMALLEST: [u32; 3] = [141_421, 999_961, MOST];

/// Three rows on two processors with the largest at each place, in the same four ways.
fn on_two_processors() -> Vec<Far> {
    let yes = [600_307, 997_335, 997_335];
    let below = [598_039, 993_567, 993_567];
    let above = [598_479, 994_298, 994_298];
    let no = [601_754, 999_739, 999_739];
    vec![
        showing(
            density(
                "largest first, yes",
                &[LARGEST, SMALLEST, yes].concat(),
                2,
                YES,
            ),
            &["says yes only below the limit", "takes m for m - 1"],
        ),
        showing(
            density(
                "largest last, unsure below",
                &[SMALLEST, below, LARGEST].concat(),
                2,
                UNSURE,
            ),
            &[
                "never takes the last row for the largest",
                "says yes where it is unsure",
            ],
        ),
        showing(
            density(
                "largest between, unsure above",
                &[SMALLEST, LARGEST, above].concat(),
                2,
                UNSURE,
            ),
            &[
                "takes the first row for the largest",
                "says no where it is unsure",
            ],
        ),
        showing(
            density("largest last, no", &[SMALLEST, no, LARGEST].concat(), 2, NO),
            &[
                "never takes the last row for the largest",
                "leaves the largest density out",
            ],
        ),
    ]
}

/// 64 rows on 64 processors, 63 of them twins and the largest, in the same four ways.
fn on_64_processors() -> Vec<Far> {
    let with = |cost: u32, deadline: u32| {
        let twins = [503_938, 999_997, 999_997].repeat(63);
        [twins, vec![cost, deadline, deadline]].concat()
    };
    vec![
        showing(
            density("64 rows, yes", &with(503_206, 999_175), 64, YES),
            &[
                "says yes only below the limit",
                "keeps the limit in 35 bits",
            ],
        ),
        showing(
            density("64 rows, unsure below", &with(503_484, 999_727), 64, UNSURE),
            &["says yes a billionth above the limit", "leaves row 63 out"],
        ),
        showing(
            density("64 rows, unsure above", &with(503_258, 999_278), 64, UNSURE),
            &[
                "says no at the limit",
                "leaves out rows with an earlier row's numbers",
            ],
        ),
        showing(
            density("64 rows, no", &with(503_536, 999_830), 64, NO),
            &[
                "says no two billionths above the limit only",
                "leaves out twins of the largest",
            ],
        ),
    ]
}

/// Three rows that only the largest density breaks the limit with, wherever it stands.
fn largest_at_each_place() -> Vec<Far> {
    vec![
        showing(
            density("the largest first", &[3, 4, 4, 1, 2, 2, 1, 4, 4], 2, NO),
            &[
                "never takes the first row for the largest",
                "takes the last row for the largest",
            ],
        ),
        showing(
            density("the largest between", &[1, 2, 2, 3, 4, 4, 1, 4, 4], 2, NO),
            &[
                "takes the first row for the largest",
                "takes the last row for the largest",
            ],
        ),
        showing(
            density("the largest last", &[1, 2, 2, 1, 4, 4, 3, 4, 4], 2, NO),
            &[
                "never takes the last row for the largest",
                "takes the first row for the largest",
            ],
        ),
    ]
}

/// Rows in which the largest density is not where the largest cost, the smallest deadline or the shortest period is.
fn largest_by_no_other_number() -> Vec<Far> {
    vec![
        showing(
            density(
                "the largest of small cost",
                &[3, 4, 4, 50, 100, 100, 25, 100, 100],
                2,
                NO,
            ),
            &["takes the row of the largest cost for the largest"],
        ),
        showing(
            density(
                "the largest due late",
                &[1, 4, 4, 75, 100, 100, 50, 100, 100],
                2,
                NO,
            ),
            &["takes the row of the smallest deadline for the largest"],
        ),
        showing(
            density(
                "the largest of long period",
                &[3, 4, 40, 1, 2, 2, 1, 4, 4],
                2,
                NO,
            ),
            &["takes the row of the largest C / T for the largest"],
        ),
        showing(
            density("rows due early", &[1, 2, 4, 2, 3, 4], 1, NO),
            &["divides costs by periods"],
        ),
    ]
}

/// The least left sides and the greatest.
fn ends() -> Vec<Far> {
    let least = [1, MOST, MOST];
    let full = [MOST; 3];
    vec![
        showing(
            density("the least left side", &least, 1, YES),
            &["says no throughout"],
        ),
        showing(
            density("64 of the least", &least.repeat(64), 64, YES),
            &["says unsure throughout"],
        ),
        showing(
            density("the greatest left side", &full.repeat(64), 64, NO),
            &[
                "keeps the left side in 32 bits",
                "keeps the left side in 36 bits",
                "keeps C in billionths in 32 bits",
                "keeps C in billionths in 49 bits",
            ],
        ),
        showing(
            density("the greatest on one processor", &full.repeat(64), 1, NO),
            &["says yes throughout"],
        ),
    ]
}

/// Sums past powers of two, and equality on the most processors.
fn sums() -> Vec<Far> {
    let full = [MOST; 3];
    let half = [55, 100, 100];
    vec![
        showing(
            density("a sum past 2^35", &half.repeat(64), 10, NO),
            &["keeps the sum in 32 bits", "keeps the sum in 35 bits"],
        ),
        showing(
            density("a part past 2^35", &half.repeat(60), 64, NO),
            &[
                "keeps the largest's part in 32 bits",
                "keeps the largest's part in 35 bits",
            ],
        ),
        showing(
            density(
                "even on 64 processors, and unsure",
                &[64, 127, 127].repeat(64),
                64,
                UNSURE,
            ),
            &[
                "rounds the left side in place of each density",
                "judges by the exact fractions",
            ],
        ),
        showing(
            density("even on 64 processors, and yes", &full, 64, YES),
            &[
                "rounds whole billionths up by one",
                "keeps the limit in 32 bits",
            ],
        ),
    ]
}

/// A call that is refused.
fn refused(name: &'static str, words: &[u32], processors: u32, refusal: u64, place: u64) -> Case {
    Case {
        name,
        call: call(Entry::Density, words, processors),
        due: Answer {
            numbers: vec![refusal, place, 0],
            ..Answer::default()
        },
    }
}

/// Refusals: processors at their ends, and two things wrong at once.
fn refusals() -> Vec<Far> {
    let row = [1, 3, 3];
    let bad = [1, 3, 3, 0, 3, 3];
    let any_number = "takes any number of processors";
    let not_zero = "answers no where it refuses";
    vec![
        showing(
            refused("no processor", &row, 0, 4, 0),
            &[any_number, not_zero],
        ),
        showing(
            refused("65 processors", &row, 65, 4, 0),
            &[any_number, not_zero],
        ),
        showing(
            refused("2^32 - 1 processors", &row, u32::MAX, 4, 0),
            &[any_number],
        ),
        showing(
            density("64 processors", &row, 64, YES),
            &["says no throughout"],
        ),
        showing(
            refused("65 processors and a row without cost", &bad, 65, 4, 0),
            &["checks rows before processors"],
        ),
        showing(
            refused("65 rows and no processor", &row.repeat(65), 0, 3, 0),
            &["checks processors before the number of rows"],
        ),
        showing(
            refused("a row without cost", &bad, 64, 8, 1),
            &["takes rows of any size", not_zero],
        ),
        showing(refused("no rows", &[], 1, 2, 0), &[not_zero]),
    ]
}

/// Every case.
pub fn cases() -> Vec<Far> {
    [
        on_one_processor(),
        on_two_processors(),
        on_64_processors(),
        largest_at_each_place(),
        largest_by_no_other_number(),
        ends(),
        sums(),
        refusals(),
    ]
    .into_iter()
    .flatten()
    .collect()
}
