//! Sheets whose densities come to the density test's limit: exactly, by fractions that add up to it, or all but a few billionths,
//! below or above, by a row that is searched for. Random rows nearly never come so close.

use crate::ends::costs_of;
use second::random::Random;
use second::rows::{Row, Sheet};

/// The largest number that a row may have.
const LARGEST: u64 = 1_000_000;

/// Billionths in a whole.
const BILLION: u64 = 1_000_000_000;

/// Bits behind the point where densities are reckoned: a billionth is about 2^30 of them, so what is cut off does not matter.
const POINT: u32 = 60;

/// A billionth so.
const BILLIONTH: i128 = (1 << POINT) / BILLION as i128;

/// How many deadlines are tried for the row that is searched for. The best of them misses its density by half a billionth or so.
const TRIED: u64 = 1_500;

/// A sheet of one of the sorts above, in any order of rows.
pub fn balanced(random: &mut Random) -> Sheet {
    let sort = random.one_of(&[
        filled, adding_up, adding_up, tuned, tuned, tuned, tuned, tuned,
    ]);
    let sheet = loop {
        if let Some(sheet) = sort(random) {
            break sheet;
        }
    };
    let order = random.order(sheet.rows.len());
    Sheet {
        rows: order.iter().map(|&place| sheet.rows[place]).collect(),
        ..sheet
    }
}

/// A number of rows: some, or any, or as many as there may be.
fn rows_count(random: &mut Random) -> u64 {
    let some = random.within(2, 9);
    let any = random.within(1, 64);
    random.one_of(&[some, some, some, any, 64])
}

/// A number of processors: a few, or any, or as many as there may be.
fn processor_count(random: &mut Random) -> u64 {
    let few = random.within(1, 4);
    let any = random.within(1, 64);
    random.one_of(&[few, few, few, any, 64])
}

/// A row of this cost and deadline, most often due at its period's end.
fn row(cost: u64, deadline: u64, random: &mut Random) -> Row {
    let later = random.within(deadline, LARGEST);
    Row {
        cost,
        deadline,
        period: random.one_of(&[deadline, deadline, later]),
    }
}

/// A deadline of any order of size.
fn deadline(random: &mut Random) -> u64 {
    let high = random.one_of(&[10, 100, 1_000, 30_000, LARGEST, LARGEST]);
    random.within(high / 10, high)
}

/// Rows that fill their deadlines: the left side is the number of rows and of processors less one, up to the largest that there is.
fn filled(random: &mut Random) -> Option<Sheet> {
    let mut rows = Vec::new();
    for _ in 0..rows_count(random) {
        let deadline = deadline(random);
        rows.push(row(deadline, deadline, random));
    }
    Some(Sheet {
        rows,
        processors: processor_count(random),
    })
}

/// So many parts of a unit that come to the limit on so many processors: their sum and m - 1 times the largest are m units. The
/// largest come first, one or more of them. None where there are no such parts.
fn parts(random: &mut Random, unit: u64, count: u64, processors: u64) -> Option<Vec<u64>> {
    let any = random.within(1, count);
    let copies = random.one_of(&[1, 1, 2, any, count]).min(count);
    let others = count - copies;
    let whole = processors * unit;
    let least = whole.div_ceil(count + processors - 1);
    let most = (whole.checked_sub(others)? / (copies + processors - 1)).min(unit);
    if least > most {
        return None;
    }
    let any = random.within(least, most);
    let largest = random.one_of(&[least, any, any]);
    let rest = whole - (copies + processors - 1) * largest;
    let smaller = costs_of(random, rest, others, largest);
    Some([vec![largest; copies as usize], smaller].concat())
}

/// Rows whose densities are parts of a small unit, such as thirds and ninths, and add up to the limit exactly: all of one deadline,
/// so that equal parts are twins, or each of its own. Once in three times one of them is moved by a unit.
fn adding_up(random: &mut Random) -> Option<Sheet> {
    let (count, processors) = (rows_count(random), processor_count(random));
    let even = (count + processors - 1) * random.within(1, 20);
    let any = random.within(2, 1_000);
    let unit = random.one_of(&[3, 7, 9, 11, 13, 37, 99, 101, even, even, even, any, any]);
    let parts = parts(random, unit, count, processors)?;
    let common = random.within(1, LARGEST / unit);
    let of_one_deadline = random.once_in(2);
    let mut rows = Vec::new();
    for part in parts {
        let own = random.within(1, LARGEST / unit);
        let scale = if of_one_deadline { common } else { own };
        rows.push(Row {
            cost: scale * part,
            deadline: scale * unit,
            period: scale * unit,
        });
    }
    if random.once_in(3) {
        let place = random.below(rows.len());
        rows[place] = moved(rows[place], random);
    }
    Some(Sheet { rows, processors })
}

/// A row with its cost or its deadline one lower or higher, as far as the sizes allow.
fn moved(row: Row, random: &mut Random) -> Row {
    let (cost, deadline) = random.one_of(&[
        (row.cost - 1, row.deadline),
        (row.cost + 1, row.deadline),
        (row.cost, row.deadline - 1),
        (row.cost, row.deadline + 1),
    ]);
    let deadline = deadline.clamp(1, LARGEST);
    Row {
        cost: cost.clamp(1, deadline),
        deadline,
        period: deadline,
    }
}

/// A row whose density is about so many billionths.
fn row_of_about(part: u64, random: &mut Random) -> Row {
    let deadline = deadline(random);
    let cost = (part * deadline + BILLION / 2) / BILLION;
    row(cost.clamp(1, deadline), deadline, random)
}

/// Rows of random densities, twins where parts are equal, and now and then one more twin.
fn rows_of_about(parts: &[u64], random: &mut Random) -> Vec<Row> {
    let mut rows: Vec<Row> = Vec::new();
    for (place, &part) in parts.iter().enumerate() {
        let is_twin = place > 0 && part == parts[place - 1];
        let drawn = row_of_about(part, random);
        rows.push(if is_twin { rows[place - 1] } else { drawn });
    }
    if rows.len() > 2 && random.once_in(3) {
        let place = random.below(rows.len());
        rows[place] = random.one_of(&rows);
    }
    rows
}

/// Rows of random densities, and a row that is searched for, once or more often: the largest of all, or a smaller one. Its density is
/// what the others leave, but for a few billionths. None where that is no such density.
fn tuned(random: &mut Random) -> Option<Sheet> {
    let (count, processors) = (rows_count(random), processor_count(random));
    let parts = parts(random, BILLION, count, processors)?;
    let largest = parts.iter().filter(|&part| *part == parts[0]).count();
    let is_largest = largest == parts.len() || random.once_in(3);
    let smaller = random.one_of(&[1, 1, 1, 2, 3]).min(parts.len() - largest);
    let (from, to) = if is_largest {
        (0, largest)
    } else {
        (largest, largest + smaller)
    };
    let rows = rows_of_about(&[&parts[..from], &parts[to..]].concat(), random);
    let gap = Gap {
        copies: (to - from) as i128,
        is_largest,
        processors: processors as i128,
    };
    let found = gap.filled(&rows, random)?;
    Some(Sheet {
        rows: [rows, vec![found; to - from]].concat(),
        processors,
    })
}

/// What some rows leave of the limit: for how many copies of a row, whether that is the largest, and on how many processors.
struct Gap {
    copies: i128,
    is_largest: bool,
    processors: i128,
}

/// A number of parts of a whole, with the bits behind the point.
fn pointed(parts: u64, whole: u64) -> i128 {
    (i128::from(parts) << POINT) / i128::from(whole)
}

/// A density as it is, but for what is cut off.
fn exact(row: &Row) -> i128 {
    pointed(row.cost, row.deadline)
}

/// A density rounded down to billionths.
fn down(row: &Row) -> i128 {
    pointed(row.cost * BILLION / row.deadline, BILLION)
}

/// A density rounded up to billionths.
fn up(row: &Row) -> i128 {
    pointed((row.cost * BILLION).div_ceil(row.deadline), BILLION)
}

impl Gap {
    /// The density that fills the gap, where densities are reckoned in one way.
    fn density(&self, rows: &[Row], reckoned: fn(&Row) -> i128) -> i128 {
        let sum: i128 = rows.iter().map(reckoned).sum();
        let largest = rows.iter().map(reckoned).max().unwrap_or(0);
        let more = self.processors - 1;
        let (taken, weight) = if self.is_largest {
            (sum, self.copies + more)
        } else {
            (sum + more * largest, self.copies)
        };
        ((self.processors << POINT) - taken) / weight
    }

    /// The density that is looked for: the one that fills the gap by exact densities, by those rounded up or by those rounded down,
    /// and some billionths less or more.
    fn wanted(&self, rows: &[Row], random: &mut Random) -> i128 {
        let far = 2 * (rows.len() as i128 + self.copies + self.processors);
        let shift = random.within(0, 2 * far as u64) as i128 - far;
        let step = random.one_of(&[-1, 0, 0, 1]) * BILLIONTH;
        match random.below(6) {
            0 => self.density(rows, exact) + shift * BILLIONTH / (self.copies + self.processors),
            1 => self.density(rows, exact) + step / 4,
            2 | 3 => self.density(rows, up) + step - BILLIONTH / 2,
            _ => self.density(rows, down) + step + BILLIONTH / 2,
        }
    }

    /// A row that fills the gap, but for a few billionths; none where the gap is not for such a row.
    fn filled(&self, rows: &[Row], random: &mut Random) -> Option<Row> {
        let wanted = self.wanted(rows, random);
        let largest = rows.iter().map(exact).max().unwrap_or(0);
        let fits = if self.is_largest {
            wanted >= largest
        } else {
            wanted > 0 && wanted <= largest
        };
        fits.then(|| nearest(wanted, random))
    }
}

/// The row whose density is the nearest to the one wanted, of those that are due shortly before some time.
fn nearest(wanted: i128, random: &mut Random) -> Row {
    let any = random.within(LARGEST / 5, LARGEST);
    let last = random.one_of(&[LARGEST, LARGEST, any]);
    let cost = |deadline: u64| {
        let whole = (wanted * i128::from(deadline) + (1 << (POINT - 1))) >> POINT;
        whole.clamp(1, i128::from(deadline))
    };
    let missed = |&deadline: &u64| {
        ((cost(deadline) << POINT) - wanted * i128::from(deadline)).unsigned_abs()
    };
    let deadline = (last - TRIED..=last).min_by_key(missed).unwrap_or(last);
    row(cost(deadline) as u64, deadline, random)
}
