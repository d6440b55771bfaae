//! Sheets that a plain method is slow on, at sizes where it still ends soon, and sheets of large numbers.

use crate::families::{
    climbing_pair, crowded_pair, every_length_due, full_and_one, halves, unit_fractions,
};
use second::random::Random;
use second::rows::{Row, Sheet};

/// A step of the climbing pair: most are small, and once in a hundred times one takes 500 passes and more.
fn step(random: &mut Random) -> u64 {
    if random.once_in(100) {
        random.within(500, 2_500)
    } else {
        random.within(10, 350)
    }
}

/// One of the slow families at a random size.
fn of_a_family(random: &mut Random) -> Sheet {
    let on_one = |rows: Vec<Row>| Sheet {
        rows,
        processors: 1,
    };
    match random.below(9) {
        0 => {
            let crowd = random.within(1, 6);
            let raised = random.one_of(&[0, 2 * crowd, 2 * crowd]);
            crowded_pair(random.within(5, 100), crowd as usize, raised)
        }
        1 => halves(2 * random.within(1, 8) as usize, random.within(10, 300)),
        2 => unit_fractions(&[2, 3, 7], random.within(1, 12), random.within(100, 900)),
        3 => unit_fractions(
            &[2, 3, 7, 43],
            random.within(1, 2),
            random.within(1_000, 6_000),
        ),
        4 => on_one(full_and_one(random.within(10, 1_200))),
        5 => on_one(every_length_due(
            random.within(2, 12),
            random.within(12, 300),
        )),
        _ => on_one(climbing_pair(step(random))),
    }
}

/// A row with one of its numbers up to three lower or higher, as far as the sizes allow.
fn changed(row: Row, random: &mut Random) -> Row {
    let number = random.below(3);
    let moved = |index: usize, old: u64, random: &mut Random| {
        if index == number {
            (old + random.within(0, 6)).saturating_sub(3)
        } else {
            old
        }
    };
    let period = moved(2, row.period, random).clamp(1, 1_000_000);
    let deadline = moved(1, row.deadline, random).clamp(1, period);
    let cost = moved(0, row.cost, random).clamp(1, deadline);
    Row {
        cost,
        deadline,
        period,
    }
}

/// One of the slow families at a small size: as it is, with a row changed a little, with a twin of a row, or in another order.
pub fn slow(random: &mut Random) -> Sheet {
    let mut sheet = of_a_family(random);
    let place = random.below(sheet.rows.len());
    match random.below(5) {
        0 => sheet.rows[place] = changed(sheet.rows[place], random),
        1 => {
            sheet.rows.insert(place, sheet.rows[place]);
            sheet.processors += random.within(0, 1);
        }
        2 => {
            let order = random.order(sheet.rows.len());
            sheet.rows = order.iter().map(|&place| sheet.rows[place]).collect();
        }
        _ => {}
    }
    sheet
}

/// A large number, each order of size as likely as the others.
fn large_number(random: &mut Random) -> u64 {
    let high = random.one_of(&[10_000, 30_000, 100_000, 300_000, 1_000_000]);
    random.within(high / 3, high)
}

/// Two to four rows of large numbers. Costs are small parts of the deadlines or lie just below them: then bounds fall in few
/// passes or by little, and trying one value after the other stays quick.
pub fn large(random: &mut Random) -> Sheet {
    let count = random.within(2, 4);
    let draw = |random: &mut Random| {
        let period = large_number(random);
        let earlier = period - random.within(0, period / 2);
        let deadline = random.one_of(&[period, period, earlier]);
        let small = random.within(1, deadline / (3 * count));
        let near = deadline - random.within(0, 200);
        Row {
            cost: random.one_of(&[small, small, small, near]),
            deadline,
            period,
        }
    };
    Sheet {
        rows: (0..count).map(|_| draw(random)).collect(),
        processors: random.within(1, 3),
    }
}
