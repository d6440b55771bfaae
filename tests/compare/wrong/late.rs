//! Slips with rows at late places.

use super::Slip;
use crate::lent::{row_at, row_count};
use second::call::Call;
use second::checks;
use second::program::Program;
use second::refine::{accepted, is_marked, marks};
use second::rows::Row;

/// The slips: what a wrong program does, and the part that is exchanged.
pub const SLIPS: [Slip; 9] = [
    ("accepts by the first 32 rows", |program| {
        program.accepted = accepted_by_first::<32>
    }),
    ("leaves row 63 without a mark", |program| {
        program.marks = |marked| marks(marked) & (u64::MAX >> 1)
    }),
    ("marks row 63 whatever its answer", |program| {
        program.marks = |marked| marks(marked) | ((marked.len() == 64) as u64) << 63
    }),
    ("marks rows from 48 on whatever their answers", |program| {
        program.is_marked = |program, sheet, method, place, bounds| {
            place >= 48 || is_marked(program, sheet, method, place, bounds)
        }
    }),
    ("names a bad row by five bits of its place", |program| {
        program.bad_row = |program, rows| checks::bad_row(program, rows).map(|place| place & 31)
    }),
    ("leaves row 63's bound unchecked", |program| {
        program.taken = bounds_of_first::<63>
    }),
    ("leaves bounds from row 48 on unchecked", |program| {
        program.taken = bounds_of_first::<48>
    }),
    ("refuses to ask about row 63", |program| {
        program.question_wrong =
            |rows, bounds, row| row == 63 || checks::question_wrong(rows, bounds, row)
    }),
    ("has row 63 left out of what others meet", |program| {
        program.is_other = |_rows, place, asked| place != asked && place != 63
    }),
];

/// The slips that every entry must show by itself.
pub const UNCHECKED: [Slip; 3] = [
    ("leaves the size of row 63 unchecked", |program| {
        program.bad_row = bad_in_first::<63>
    }),
    ("leaves the sizes of rows from 48 on unchecked", |program| {
        program.bad_row = bad_in_first::<48>
    }),
    ("leaves the sizes of rows from 32 on unchecked", |program| {
        program.bad_row = bad_in_first::<32>
    }),
];

/// The slips that every entry with a result sheet must show by itself.
pub const ACCEPTED: [Slip; 2] = [
    ("accepts without a look at row 63", |program| {
        program.accepted = accepted_by_first::<63>
    }),
    ("accepts by the first 48 rows", |program| {
        program.accepted = accepted_by_first::<48>
    }),
];

/// Whether the first rows are all marked.
pub fn accepted_by_first<const COUNT: usize>(marked: &[bool]) -> bool {
    accepted(&marked[..marked.len().min(COUNT)])
}

/// The first row outside the sizes allowed; of rows behind the first ones only those whose numbers are out of order.
fn bad_in_first<const COUNT: usize>(program: &Program, rows: &[Row]) -> Option<usize> {
    let in_order =
        |row: &Row| 1 <= row.cost && row.cost <= row.deadline && row.deadline <= row.period;
    let is_bad = |&place: &usize| {
        let row = rows[place];
        (program.row_wrong)(row) && (place < COUNT || !in_order(&row))
    };
    (0..rows.len()).find(is_bad)
}

/// The call with its bounds behind the first rows brought within their rows' cost to deadline.
fn bounds_of_first<const COUNT: usize>(call: &Call) -> Call {
    let mut taken = call.clone();
    for place in COUNT..row_count(call).min(call.bounds.len()) {
        let [cost, deadline, _] = row_at(call, place);
        taken.bounds[place] = call.bounds[place].min(deadline).max(cost);
    }
    taken
}
