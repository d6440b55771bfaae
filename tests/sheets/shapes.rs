//! How a sheet of each kind is drawn.

use crate::families::climbing_pair;
use second::random::Random;
use second::rows::{Row, Sheet};

/// So many rows, each drawn anew or, once in so many times, a twin of one before it.
fn rows_with_twins(
    random: &mut Random,
    count: u64,
    once_in: u64,
    draw: impl Fn(&mut Random) -> Row,
) -> Vec<Row> {
    let mut rows: Vec<Row> = Vec::new();
    for _ in 0..count {
        let is_twin = !rows.is_empty() && random.once_in(once_in);
        let row = if is_twin {
            random.one_of(&rows)
        } else {
            draw(random)
        };
        rows.push(row);
    }
    rows
}

/// A row with a period up to a limit; D = T every other time and C = D once in three times.
fn dense_row(random: &mut Random, limit: u64) -> Row {
    let period = random.within(1, limit);
    let deadline = if random.once_in(2) {
        period
    } else {
        random.within(1, period)
    };
    let cost = if random.once_in(3) {
        deadline
    } else {
        random.within(1, deadline)
    };
    Row {
        cost,
        deadline,
        period,
    }
}

/// One to four rows of numbers up to 6.
pub fn tiny(random: &mut Random) -> Sheet {
    let count = random.within(1, 4);
    let rows = rows_with_twins(random, count, 3, |random| dense_row(random, 6));
    let processors = if random.once_in(16) {
        random.within(4, 64)
    } else {
        random.within(1, 3)
    };
    Sheet { rows, processors }
}

/// Two to twelve rows of numbers up to 60, most of them of modest cost.
pub fn middle(random: &mut Random) -> Sheet {
    let count = random.within(2, 12);
    let draw = |random: &mut Random| {
        let row = dense_row(random, 60);
        let cost = random.within(1, row.deadline.div_ceil(3));
        if random.once_in(4) {
            row
        } else {
            Row { cost, ..row }
        }
    };
    let rows = rows_with_twins(random, count, 6, draw);
    Sheet {
        rows,
        processors: random.within(1, 6),
    }
}

/// Numbers, row counts and processors at the limits. Where there are many rows, either all costs are near the deadlines or
/// all are small: then every value tried lies near, and trying one value after the other stays quick.
pub fn edges(random: &mut Random) -> Sheet {
    let count = random.one_of(&[1, 2, 3, 3, 63, 64]);
    let small = random.once_in(2);
    let mixed = count <= 3 && random.once_in(16);
    let draw = |random: &mut Random| {
        let period = random.one_of(&[1_000_000, 1_000_000, 999_999, 524_288, 65_536]);
        let deadline = period - random.one_of(&[0, 0, 1, 2, 300]);
        let near = deadline - random.one_of(&[0, 0, 1, 2, 200]);
        let low = random.within(1, 3);
        let is_low = if mixed { random.once_in(2) } else { small };
        Row {
            cost: if is_low { low } else { near },
            deadline,
            period,
        }
    };
    let rows = rows_with_twins(random, count, 4, draw);
    Sheet {
        rows,
        processors: random.one_of(&[1, 2, 32, 63, 64]),
    }
}

/// About 64 rows of small cost.
pub fn light(random: &mut Random) -> Sheet {
    let count = random.within(60, 64);
    let draw = |random: &mut Random| {
        let period = random.within(100, 1000);
        Row {
            cost: random.within(1, 4),
            deadline: random.within(period / 2, period),
            period,
        }
    };
    let rows = rows_with_twins(random, count, 8, draw);
    Sheet {
        rows,
        processors: random.one_of(&[1, 2, 4, 8, 64]),
    }
}

/// About 64 rows of cost near their deadline.
pub fn heavy(random: &mut Random) -> Sheet {
    let count = random.within(60, 64);
    let draw = |random: &mut Random| {
        let period = random.within(20, 60);
        let deadline = random.within(period * 2 / 3, period);
        Row {
            cost: random.within(deadline / 3, deadline),
            deadline,
            period,
        }
    };
    let rows = rows_with_twins(random, count, 8, draw);
    Sheet {
        rows,
        processors: random.within(1, 64),
    }
}

/// A row as in the papers' experiment: utilisation exponential with a mean, drawn again above 1; period uniform up to 2000;
/// deadline uniform from cost to period.
pub fn exponential_row(random: &mut Random, mean: f64) -> Row {
    let utilisation = loop {
        let drawn = -mean * (1.0 - random.fraction()).ln();
        if drawn <= 1.0 {
            break drawn;
        }
    };
    let period = random.within(1, 2000);
    let cost = ((utilisation * period as f64).round() as u64).clamp(1, period);
    Row {
        cost,
        deadline: random.within(cost, period),
        period,
    }
}

/// A sheet as in the papers' experiment, from one row more than processors on.
pub fn exponential(random: &mut Random) -> Sheet {
    let processors = random.one_of(&[2, 4, 8]);
    let mean = random.one_of(&[0.25, 0.5]);
    let count = random.within(processors + 1, 2 * processors + 4);
    let rows = (0..count).map(|_| exponential_row(random, mean)).collect();
    Sheet { rows, processors }
}

/// The climbing pair in either order, at times with small rows beside it.
pub fn climbing(random: &mut Random) -> Sheet {
    let step = random.within(1, 9);
    let mut rows = climbing_pair(step);
    if random.once_in(2) {
        rows.swap(0, 1);
    }
    for _ in 0..random.below(3) {
        let period = random.within(4 * step, 9 * step);
        let place = random.below(rows.len() + 1);
        rows.insert(
            place,
            Row {
                cost: 1,
                deadline: period,
                period,
            },
        );
    }
    Sheet {
        rows,
        processors: random.one_of(&[1, 1, 1, 2]),
    }
}

/// Rows with periods that divide 60, until they fill one processor exactly; at times a sixtieth short or over, or due earlier.
pub fn full(random: &mut Random) -> Sheet {
    let mut free = random.one_of(&[59, 60, 60, 60, 61]);
    let mut rows = Vec::new();
    while free > 0 {
        let period = random.one_of(&[1, 2, 3, 4, 5, 6, 10, 12, 15, 20, 30, 60]);
        let sixtieths = 60 / period;
        if sixtieths > free {
            continue;
        }
        let cost = random.within(1, period.min(free / sixtieths));
        let deadline = if random.once_in(4) {
            random.within(cost, period)
        } else {
            period
        };
        rows.push(Row {
            cost,
            deadline,
            period,
        });
        free -= cost * sixtieths;
    }
    Sheet {
        rows,
        processors: 1,
    }
}

/// One to three rows of large numbers that leave one processor busy for long.
pub fn far(random: &mut Random) -> Sheet {
    let count = random.within(1, 3);
    let draw = |random: &mut Random| {
        let period = random.within(1_000, 1_000_000);
        let most = period * 2 / (count + 1);
        let cost = random.within((most / 2).max(1), most);
        let deadline = if random.once_in(2) {
            period
        } else {
            random.within(period - (period - cost) / 4, period)
        };
        Row {
            cost,
            deadline,
            period,
        }
    };
    let rows = (0..count).map(|_| draw(random)).collect();
    Sheet {
        rows,
        processors: 1,
    }
}

/// A row count at or past its limits, of tiny rows.
pub fn counts(random: &mut Random) -> Sheet {
    let count = random.one_of(&[0, 1, 63, 64, 64, 65, 66, 128, 255]);
    let rows = (0..count).map(|_| dense_row(random, 6)).collect();
    Sheet {
        rows,
        processors: random.one_of(&[1, 2, 63, 64]),
    }
}
