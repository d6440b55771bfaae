//! Families of sheets that keep a plain method busy for long: their bounds fall by small steps over many passes, or their climbs
//! go over many small periods, or their demand keeps close to every length.

use second::rows::{Row, Sheet};

/// A row by its numbers.
fn row(cost: u64, deadline: u64, period: u64) -> Row {
    Row {
        cost,
        deadline,
        period,
    }
}

/// So many rows of the same numbers.
fn twins(count: usize, row: Row) -> Vec<Row> {
    vec![row; count]
}

/// Two rows whose bounds on one processor fall by one over about three times the step squared evaluations.
pub fn climbing_pair(step: u64) -> Vec<Row> {
    vec![
        row(step, 3 * step, 4 * step + 1),
        row(2 * step, 5 * step + 1, 5 * step + 1),
    ]
}

/// The climbing pair among rows of cost 1 and as many rows that fill a processor each, on one processor more than these. With
/// deadlines and periods of the pair raised by as many units as there are other rows, every row is marked, and only after
/// many passes; without, all rows but one are given up at once.
pub fn crowded_pair(step: u64, crowd: usize, raised: u64) -> Sheet {
    let pair = climbing_pair(step)
        .into_iter()
        .map(|pair| row(pair.cost, pair.deadline + raised, pair.period + raised));
    let small = twins(crowd, row(1, step, 1_000_000));
    let filled = twins(crowd, row(1, 1, 1));
    Sheet {
        rows: pair.chain(small).chain(filled).collect(),
        processors: crowd as u64 + 1,
    }
}

/// Rows that fill half as many processors by halves, and as many long rows that never find room.
pub fn halves(count: usize, long: u64) -> Sheet {
    Sheet {
        rows: [twins(count, row(1, 2, 2)), twins(count, row(1, long, long))].concat(),
        processors: count as u64 / 2,
    }
}

/// Rows of cost 1 with these small periods, which leave little of one processor, and so many long rows that climb over all of
/// them.
pub fn unit_fractions(periods: &[u64], count: u64, long: u64) -> Sheet {
    let small = periods.iter().map(|&period| row(1, period, period));
    let longs = (0..count).map(|less| row(1, long - less, long - less));
    Sheet {
        rows: small.chain(longs).collect(),
        processors: 1,
    }
}

/// A row that fills one processor and a long row of cost 1: the least miss is at the long row's deadline.
pub fn full_and_one(long: u64) -> Vec<Row> {
    vec![row(1, 1, 1), row(1, long, long)]
}

/// Five rows of utilisation exactly 1 whose periods have their common multiple past the largest horizon: never a miss, never
/// a busy length within it.
pub fn never_decided() -> Vec<Row> {
    let parts = [(2, 11), (4, 13), (8, 17), (16, 19), (16, 23)];
    let filled = |&(part, scale): &(u64, u64)| row(scale, part * scale, part * scale);
    parts.iter().map(filled).collect()
}

/// Every length is some row's deadline: so many rows of that period, each due one later than the one before, and a long row of
/// cost 1 that is too much at its deadline.
pub fn every_length_due(count: u64, long: u64) -> Vec<Row> {
    let due = (1..=count).map(|deadline| row(1, deadline, count));
    due.chain([row(1, long, long)]).collect()
}

/// Five rows of utilisation just below 1, whose busy length is long.
pub fn nearly_one(long: u64) -> Vec<Row> {
    let small = [2, 3, 7, 43].map(|period| row(1, period, period));
    [&small[..], &[row(long * 553 / 1_000_000, long, long)]].concat()
}

/// Four rows of utilisation just above 1, whose least miss is at length 16,231,278.
pub fn late_miss() -> Vec<Row> {
    vec![
        row(1, 2, 2),
        row(1, 3, 3),
        row(346, 9_366, 9_366),
        row(1_517, 11_694, 11_694),
    ]
}
