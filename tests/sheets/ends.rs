//! Sheets at the far ends: sums as large as the sizes allow, sums just past a power of two, tiny and huge periods beside each
//! other, rows that only late ones keep from being accepted, and rows that decide late.

use second::random::Random;
use second::rows::{Row, Sheet};

/// The largest number that a row may have.
const LARGEST: u64 = 1_000_000;

/// A number up to the largest, each order of size from a low one on as likely as the others.
fn of_any_order(random: &mut Random, low: u64) -> u64 {
    let orders = (LARGEST / low).ilog2() as u64;
    let high = (low << random.within(1, orders + 1)).min(LARGEST);
    random.within(high / 2, high)
}

/// 49 to 64 rows of small cost that all fit but for late ones, which fill their deadlines: the last row, any from place 48 on, or
/// all from there on.
pub fn late(random: &mut Random) -> Sheet {
    let fewer = random.within(49, 64) as usize;
    let count = random.one_of(&[64, 64, fewer]);
    let first = 48 + random.below(count - 48);
    let light = |random: &mut Random| {
        let period = random.within(600, 1_000);
        Row {
            cost: random.within(1, 4),
            deadline: random.within(period / 2, period),
            period,
        }
    };
    let mut rows: Vec<Row> = (0..count).map(|_| light(random)).collect();
    let (from, to) = random.one_of(&[(count - 1, count), (first, first + 1), (first, count)]);
    for row in &mut rows[from..to] {
        let number = random.within(1_000, 3_000);
        (row.cost, row.deadline, row.period) = (number, number, number);
    }
    Sheet {
        rows,
        processors: random.one_of(&[8, 16, 32, 48]),
    }
}

/// Costs that come to a total, none above a limit that leaves some room: each is a part of what is left.
pub fn costs_of(random: &mut Random, total: u64, count: u64, limit: u64) -> Vec<u64> {
    let mut left = total;
    let mut costs = Vec::new();
    for others in (0..count).rev() {
        let least = left.saturating_sub(others * limit).max(1);
        let most = limit.min(left - others);
        let even = (left / (others + 1)).clamp(least, most);
        let low = even - (even - least) / 4;
        let high = even + (most - even) / 4;
        let cost = if others == 0 {
            left
        } else {
            random.within(low, high)
        };
        costs.push(cost);
        left -= cost;
    }
    costs
}

/// What the costs of a brimming sheet just pass: a power of two from 2^10 to 2^25, for each processor or for all.
fn brim(random: &mut Random, processors: u64) -> u64 {
    let power = 1 << random.within(10, 25);
    if power * processors <= 50 * LARGEST {
        random.one_of(&[1, processors]) * power
    } else {
        power
    }
}

/// How far the costs of so many rows, with an even part each, pass the brim: by a little, or by a little more than one of them.
fn past_the_brim(random: &mut Random, count: u64, even: u64) -> u64 {
    if count >= 20 && random.once_in(2) {
        even + even / 20 + 300
    } else {
        random.within(1, 400)
    }
}

/// Rows of one period whose costs come to just past a power of two, and a row of small cost that meets all of them. A sum, or its
/// part for a processor, that is kept in too few bits is small there. The rows are due at their costs or at their period's end.
pub fn brimming(random: &mut Random) -> Sheet {
    let many = random.within(1, 64);
    let processors = random.one_of(&[1, 1, 2, many]);
    let brim = brim(random, processors);
    let fewest = (brim / 900_000 + 1).max(2);
    let count = random.within(fewest, 63);
    let even = brim / count;
    let total = brim + past_the_brim(random, count, even);
    let period = (even + even / 16 + 500).min(LARGEST);
    let costs = costs_of(random, total, count, period - 3);
    let due_at_once = random.once_in(2);
    let full = |&cost: &u64| Row {
        cost,
        deadline: if due_at_once { cost } else { period },
        period,
    };
    let mut rows: Vec<Row> = costs.iter().map(full).collect();
    let small = Row {
        cost: random.within(1, 3),
        deadline: period,
        period,
    };
    rows.insert(random.below(rows.len() + 1), small);
    Sheet { rows, processors }
}

/// 40 to 63 rows of large middling costs, one to three small ones that climb over all of them, and about as many processors as
/// leave a little: sums up to the largest that there are.
pub fn crowd(random: &mut Random) -> Sheet {
    let longest = of_any_order(random, 1_000);
    let tight = random.once_in(2);
    let middling = |random: &mut Random| {
        let period = longest - random.within(0, longest / 50);
        let cost = random.within(period / 3, period * 4 / 5);
        let deadline = if tight {
            cost + random.within(0, 3)
        } else {
            period
        };
        Row {
            cost,
            deadline,
            period,
        }
    };
    let count = random.within(40, 61);
    let mut rows: Vec<Row> = (0..count).map(|_| middling(random)).collect();
    let load: u64 = rows.iter().map(|row| row.cost).sum();
    for _ in 0..random.within(1, 3) {
        let small = Row {
            cost: random.within(1, 3),
            deadline: longest - random.within(0, 5),
            period: longest,
        };
        rows.insert(random.below(rows.len() + 1), small);
    }
    let processors = (load / longest + random.within(0, 6)).clamp(1, 64);
    Sheet { rows, processors }
}

/// One huge row and one to three rows of periods up to 7: the quotient of a window and a period is as large as there is one.
pub fn uneven(random: &mut Random) -> Sheet {
    let period = of_any_order(random, 4_000);
    let cost = random.within(1, period / 2);
    let earlier = random.within(cost, period);
    let deadline = random.one_of(&[period, period, earlier]);
    let huge = Row {
        cost,
        deadline,
        period,
    };
    let tiny = |random: &mut Random| {
        let period = random.within(1, 7);
        let cost = random.within(1, period);
        Row {
            cost,
            deadline: random.within(cost, period),
            period,
        }
    };
    let mut rows: Vec<Row> = (0..random.within(1, 3)).map(|_| tiny(random)).collect();
    rows.insert(random.below(rows.len() + 1), huge);
    Sheet {
        rows,
        processors: random.within(1, 3),
    }
}

/// Two rows of tiny periods that leave a sixth of one processor, and two long rows that take just more of it, or just less, in any
/// order: a miss comes late, or the busy length is long.
pub fn close(random: &mut Random) -> Sheet {
    let row = |cost: u64, period: u64| Row {
        cost,
        deadline: period,
        period,
    };
    let (first, last) = (random.within(100, 3_000), random.within(100, 3_000));
    let cost = random.within(1, first / 8);
    let free = last as f64 * (1.0 / 6.0 - cost as f64 / first as f64);
    let filling = free as u64 + random.within(0, 1);
    let rows = [
        row(1, 2),
        row(1, 3),
        row(cost, first),
        row(filling.max(1), last),
    ];
    Sheet {
        rows: random.order(4).iter().map(|&place| rows[place]).collect(),
        processors: 1,
    }
}
