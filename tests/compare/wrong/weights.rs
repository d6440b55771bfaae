//! Slips in how often the density test counts a row: in the sum, and as the largest.

use super::Slip;
use second::density::weight;
use second::rows::Row;

/// The slips: what a wrong program does, and the part that is exchanged.
pub const COUNTED: [Slip; 16] = [
    ("leaves the largest density out", |program| {
        program.weight = |_, _, _, _| 1
    }),
    ("takes m for m - 1", |program| {
        program.weight =
            |_, place, largest, processors| 1 + u128::from(place == largest) * processors
    }),
    ("leaves the last row out of the sum", |program| {
        program.weight = not_summed_last
    }),
    ("leaves the first row out of the sum", |program| {
        program.weight = not_summed_first
    }),
    ("never takes the last row for the largest", |program| {
        program.weight = |rows, place, largest, processors| {
            largest_if(largest + 1 < rows.len(), place, largest, processors)
        }
    }),
    ("never takes the first row for the largest", |program| {
        program.weight =
            |_, place, largest, processors| largest_if(largest > 0, place, largest, processors)
    }),
    ("takes the first row for the largest", |program| {
        program.weight =
            |_, place, largest, processors| largest_if(largest == 0, place, largest, processors)
    }),
    ("takes the last row for the largest", |program| {
        program.weight = |rows, place, largest, processors| {
            largest_if(largest + 1 == rows.len(), place, largest, processors)
        }
    }),
    (
        "takes the row of the largest cost for the largest",
        |program| program.weight = by_cost,
    ),
    (
        "takes the row of the smallest deadline for the largest",
        |program| program.weight = by_deadline,
    ),
    (
        "takes the row of the largest C / T for the largest",
        |program| program.weight = by_utilisation,
    ),
    ("leaves out rows with an earlier row's numbers", |program| {
        program.weight = without_twins
    }),
    ("leaves out rows with an earlier row's density", |program| {
        program.weight = without_equals
    }),
    ("leaves out twins of the largest", |program| {
        program.weight = |rows, place, largest, processors| {
            let is_twin = place != largest && rows[place] == rows[largest];
            u128::from(!is_twin) * weight(rows, place, largest, processors)
        }
    }),
    (
        "takes each twin of the largest for the largest",
        |program| {
            program.weight = |rows, place, largest, processors| {
                largest_if(
                    true,
                    usize::from(rows[place] != rows[largest]),
                    0,
                    processors,
                )
            }
        },
    ),
    ("leaves row 63 out", |program| {
        program.weight = |rows, place, largest, processors| {
            u128::from(place != 63) * weight(rows, place, largest, processors)
        }
    }),
];

/// What a weight is where the row is taken for the largest only under a condition.
fn largest_if(may_be: bool, place: usize, largest: usize, processors: u128) -> u128 {
    if may_be && place == largest {
        processors
    } else {
        1
    }
}

/// The weight without that in the sum, where there is none.
fn not_summed(is_left_out: bool, weight: u128) -> u128 {
    weight.saturating_sub(u128::from(is_left_out))
}

/// The weights with the last row only as the largest.
fn not_summed_last(rows: &[Row], place: usize, largest: usize, processors: u128) -> u128 {
    let weight = weight(rows, place, largest, processors);
    not_summed(place + 1 == rows.len(), weight)
}

/// The weights with the first row only as the largest.
fn not_summed_first(rows: &[Row], place: usize, largest: usize, processors: u128) -> u128 {
    not_summed(place == 0, weight(rows, place, largest, processors))
}

/// The weights with the row of the largest cost, the first of them, for the largest.
fn by_cost(rows: &[Row], place: usize, largest: usize, processors: u128) -> u128 {
    let is_largest = rows[..largest]
        .iter()
        .all(|row| row.cost < rows[largest].cost)
        && rows[largest..]
            .iter()
            .all(|row| row.cost <= rows[largest].cost);
    largest_if(is_largest, place, largest, processors)
}

/// The weights with the row of the smallest deadline, the first of them, for the largest.
fn by_deadline(rows: &[Row], place: usize, largest: usize, processors: u128) -> u128 {
    let asked = rows[largest].deadline;
    let is_smallest = rows[..largest].iter().all(|row| row.deadline > asked)
        && rows[largest..].iter().all(|row| row.deadline >= asked);
    largest_if(is_smallest, place, largest, processors)
}

/// The weights with any row of the largest cost over period for the largest.
fn by_utilisation(rows: &[Row], place: usize, largest: usize, processors: u128) -> u128 {
    let asked = rows[largest];
    let is_largest = rows
        .iter()
        .all(|row| row.cost * asked.period <= asked.cost * row.period);
    largest_if(is_largest, place, largest, processors)
}

/// The weights with rows counted once where an earlier one has the same numbers.
fn without_twins(rows: &[Row], place: usize, largest: usize, processors: u128) -> u128 {
    let is_twin = rows[..place].contains(&rows[place]);
    u128::from(!is_twin) * weight(rows, place, largest, processors)
}

/// The weights with rows counted once where an earlier one has the same density.
fn without_equals(rows: &[Row], place: usize, largest: usize, processors: u128) -> u128 {
    let equals = |row: &Row| row.cost * rows[place].deadline == rows[place].cost * row.deadline;
    let is_equal = rows[..place].iter().any(equals);
    u128::from(!is_equal) * weight(rows, place, largest, processors)
}
