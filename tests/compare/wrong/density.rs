//! Slips in the density test: in rounding, in the answer, in refusals, and numbers kept in too few bits.

use super::narrow::cut;
use super::weights::COUNTED;
use super::Slip;
use crate::densities;
use crate::exact::test_of_sheet;
use second::answers::refused;
use second::call::Entry;
use second::checks::{applying, room_needed};
use second::density::{density, density_number, divided_by_hand, left_side, limit, rounded};
use second::density::{Density, Rounded};
use second::program::Program;
use second::rows::{Row, Sheet};

/// The slips in rounding.
pub const ROUNDED: [Slip; 11] = [
    ("divides costs by periods", |program| {
        program.rounded = |row| divided_by_hand(row.cost, row.period, 9)
    }),
    ("rounds to the nearest billionth", |program| {
        program.rounded = nearest
    }),
    ("works in millionths", |program| {
        program.rounded = |row| divided_by_hand(row.cost, row.deadline, 6);
        program.limit = |processors| 1_000_000 * processors
    }),
    ("works in tenths of a billionth", |program| {
        program.rounded = |row| divided_by_hand(row.cost, row.deadline, 10);
        program.limit = |processors| 10_000_000_000 * processors
    }),
    ("swaps up and down", |program| {
        program.rounded = |row| {
            let Rounded { down, up } = rounded(row);
            Rounded { down: up, up: down }
        }
    }),
    ("rounds down throughout", |program| {
        program.rounded = |row| {
            let down = rounded(row).down;
            Rounded { down, up: down }
        }
    }),
    ("rounds up throughout", |program| {
        program.rounded = |row| {
            let up = rounded(row).up;
            Rounded { down: up, up }
        }
    }),
    ("rounds whole billionths up by one", |program| {
        program.rounded = |row| {
            let down = rounded(row).down;
            Rounded { down, up: down + 1 }
        }
    }),
    ("rounds the sum in place of each density", |program| {
        program.density = sum_rounded
    }),
    ("rounds the left side in place of each density", |program| {
        program.density = side_rounded
    }),
    ("judges by the exact fractions", |program| {
        program.density = exactly
    }),
];

/// The slips in the answer.
pub const ANSWERED: [Slip; 14] = [
    ("says yes only below the limit", |program| {
        program.meets = |left, limit| left < limit
    }),
    ("says no at the limit", |program| {
        program.breaks = |left, limit| left >= limit
    }),
    ("says yes a billionth above the limit", |program| {
        program.meets = |left, limit| left <= limit + 1
    }),
    ("says no two billionths above the limit only", |program| {
        program.breaks = |left, limit| left > limit + 1
    }),
    ("holds the sum against one processor", |program| {
        program.limit = |_| limit(1)
    }),
    ("says unsure throughout", |program| {
        program.density = |_, _| Density::Unsure
    }),
    ("says yes throughout", |program| {
        program.density = |_, _| Density::Yes
    }),
    ("says no throughout", |program| {
        program.density = |_, _| Density::No
    }),
    ("says yes where it is unsure", |program| {
        program.density = in_place_of::<0, 1>
    }),
    ("says no where it is unsure", |program| {
        program.density = in_place_of::<0, 2>
    }),
    ("says unsure where it is no", |program| {
        program.density = in_place_of::<2, 0>
    }),
    ("says unsure where it is yes", |program| {
        program.density = in_place_of::<1, 0>
    }),
    ("gives 2 for yes and 1 for no", |program| {
        program.density_number = |answer| (3 - density_number(answer)) % 3
    }),
    ("gives 0 for no and 2 for unsure", |program| {
        program.density_number = |answer| (5 - density_number(answer)) % 3
    }),
];

/// The slips in refusals.
pub const REFUSED: [Slip; 9] = [
    ("takes any number of processors", |program| {
        program.applying = |entry| of_density(entry, &[2, 3, 8])
    }),
    ("takes rows of any size", |program| {
        program.applying = |entry| of_density(entry, &[2, 3, 4])
    }),
    ("checks rows before processors", |program| {
        program.rank = |number| swapped(number, 4, 8)
    }),
    ("checks processors before the number of rows", |program| {
        program.rank = |number| swapped(number, 3, 4)
    }),
    ("judges a method that it is not given", |program| {
        program.applying = |entry| of_density(entry, &[2, 3, 4, 5, 8])
    }),
    ("judges a horizon that it is not given", |program| {
        program.applying = |entry| of_density(entry, &[2, 3, 4, 6, 8])
    }),
    ("asks for room that it is not given", |program| {
        program.applying = |entry| of_density(entry, &[2, 3, 4, 7, 8]);
        program.room_needed = |entry, rows| room_needed(entry, rows).max(1)
    }),
    ("judges bounds that it is not given", |program| {
        program.applying = |entry| of_density(entry, &[2, 3, 4, 8, 9])
    }),
    ("answers no where it refuses", |program| {
        program.refused = |entry, refusal| {
            let mut answer = refused(entry, refusal);
            answer.numbers[2] = densities::NO;
            answer
        }
    }),
];

/// The slips of numbers that are kept in too few bits. The left side is at most 127 billion, which 37 bits hold.
pub fn narrow() -> Vec<Slip> {
    let lists: [&[Slip]; 5] = [
        &kept_in!("the left side", left_side, left_cut, [32, 33, 34, 35, 36]),
        &kept_in!("the sum", left_side, sum_cut, [32, 33, 34, 35]),
        &kept_in!("the largest's part", left_side, part_cut, [32, 33, 34, 35]),
        &kept_in!("the limit", limit, limit_cut, [32, 33, 34, 35]),
        &kept_in!("C in billionths", rounded, product_cut, [32, 40, 48, 49]),
    ];
    lists.concat()
}

/// The slips that each relation of density answers must show.
const BY_RELATION: [(&str, &str); 16] = [
    (densities::TRUE.name, "says yes where it is unsure"),
    (densities::TRUE.name, "says no where it is unsure"),
    (densities::TRUE.name, "rounds to the nearest billionth"),
    (densities::TRUE.name, "swaps up and down"),
    (densities::TRUE.name, "takes m for m - 1"),
    (densities::TRUE.name, "leaves out twins of the largest"),
    (densities::NEAR.name, "works in millionths"),
    (densities::NEAR.name, "says unsure where it is yes"),
    (densities::NEAR.name, "says unsure where it is no"),
    (densities::NEAR.name, "rounds whole billionths up by one"),
    (
        densities::IN_ANY_ORDER.name,
        "never takes the last row for the largest",
    ),
    (
        densities::IN_ANY_ORDER.name,
        "leaves the first row out of the sum",
    ),
    (
        densities::NO_WORSE.name,
        "holds the sum against one processor",
    ),
    (densities::NO_WORSE.name, "gives 2 for yes and 1 for no"),
    (densities::NO_MISS.name, "divides costs by periods"),
    (
        densities::NO_MISS.name,
        "leaves out rows with an earlier row's numbers",
    ),
];

/// The slip of a name.
pub fn named(name: &str) -> Slip {
    let all = [&COUNTED[..], &ROUNDED, &ANSWERED, &REFUSED, &narrow()].concat();
    let named = all.into_iter().find(|(slip, _)| *slip == name);
    named.unwrap_or(("does nothing wrong", |_| {}))
}

/// The slips that a relation must show.
pub fn slips_of(relation: &str) -> Vec<Slip> {
    let listed = BY_RELATION.iter().filter(|(name, _)| *name == relation);
    listed.map(|(_, slip)| named(slip)).collect()
}

/// A density rounded to the nearest billionth.
fn nearest(row: Row) -> Rounded {
    let nearest = (divided_by_hand(row.cost, row.deadline, 10).down + 5) / 10;
    Rounded {
        down: nearest,
        up: nearest,
    }
}

/// The answer by a left side rounded down and up.
fn by_sides(down: u128, up: u128, sheet: &Sheet) -> Density {
    let limit = limit(u128::from(sheet.processors));
    if up <= limit {
        Density::Yes
    } else if down > limit {
        Density::No
    } else {
        Density::Unsure
    }
}

/// The answer with the sum of the exact densities rounded once, and the largest by itself.
fn sum_rounded(_program: &Program, sheet: &Sheet) -> Density {
    let (down, up) = test_of_sheet(sheet).total().billionths();
    let densities = || sheet.rows.iter().map(|&row| rounded(row));
    let more = u128::from(sheet.processors) - 1;
    let downs = densities().map(|density| density.down);
    let ups = densities().map(|density| density.up);
    by_sides(
        u128::from(down) + more * downs.max().unwrap_or(0),
        u128::from(up) + more * ups.max().unwrap_or(0),
        sheet,
    )
}

/// The answer with the exact left side rounded once.
fn side_rounded(_program: &Program, sheet: &Sheet) -> Density {
    let (down, up) = test_of_sheet(sheet).left_side().billionths();
    by_sides(u128::from(down), u128::from(up), sheet)
}

/// The answer by the exact fractions, never unsure.
fn exactly(_program: &Program, sheet: &Sheet) -> Density {
    let test = test_of_sheet(sheet);
    if test.left_side().against(test.limit()).is_le() {
        Density::Yes
    } else {
        Density::No
    }
}

/// The answer of one number given in place of another's.
fn in_place_of<const FROM: u64, const TO: u64>(program: &Program, sheet: &Sheet) -> Density {
    let all = [Density::Unsure, Density::Yes, Density::No];
    let right = density(program, sheet);
    if density_number(right) == FROM {
        all[TO as usize]
    } else {
        right
    }
}

/// The checks of the density test, and those of other entries as they are.
fn of_density(entry: Entry, checks: &'static [u32]) -> &'static [u32] {
    match entry.question() {
        Entry::Density => checks,
        _ => applying(entry),
    }
}

/// A check's rank with those of two checks swapped.
fn swapped(number: u32, one: u32, other: u32) -> u32 {
    match number {
        _ if number == one => other,
        _ if number == other => one,
        _ => number,
    }
}

/// A number's lowest bits.
fn cut_wide<const BITS: u32>(number: u128) -> u128 {
    u128::from(cut::<BITS>(number as u64))
}

/// The left side cut.
fn left_cut<const BITS: u32>(
    program: &Program,
    sheet: &Sheet,
    densities: &[u128],
    largest: usize,
) -> u128 {
    cut_wide::<BITS>(left_side(program, sheet, densities, largest))
}

/// The left side with the sum cut.
fn sum_cut<const BITS: u32>(
    _program: &Program,
    sheet: &Sheet,
    densities: &[u128],
    largest: usize,
) -> u128 {
    let more = u128::from(sheet.processors) - 1;
    cut_wide::<BITS>(densities.iter().sum()) + more * densities[largest]
}

/// The left side with m - 1 times the largest density cut.
fn part_cut<const BITS: u32>(
    _program: &Program,
    sheet: &Sheet,
    densities: &[u128],
    largest: usize,
) -> u128 {
    let more = u128::from(sheet.processors) - 1;
    densities.iter().sum::<u128>() + cut_wide::<BITS>(more * densities[largest])
}

/// The limit cut.
fn limit_cut<const BITS: u32>(processors: u128) -> u128 {
    cut_wide::<BITS>(limit(processors))
}

/// A density whose cost in billionths is cut before it is divided.
fn product_cut<const BITS: u32>(row: Row) -> Rounded {
    let billionths = cut::<BITS>(1_000_000_000 * row.cost);
    divided_by_hand(billionths, row.deadline, 0)
}
