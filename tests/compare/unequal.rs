//! Columns of every combination of lengths: few words and many, just below 64 and just above, and more than can be written out.

use crate::difference::compared;
use crate::lent::with_rows;
use crate::show::{call_shown, difference_shown};
use second::call::{Call, Entry};
use second::checks::room_needed;
use second::program::Program;
use second::random::Random;
use second::rows::Row;

/// The lengths that are written out. Lists of 2, 3 and 4 words have three times 3 together, and 259 is 3 in eight bits.
const WRITTEN_OUT: [usize; 11] = [0, 1, 2, 3, 4, 63, 64, 65, 66, 67, 259];

/// How many words are lent behind lists of three: none, or so many that the length is 3 in 16 bits, or in 32.
const BEHIND: [usize; 3] = [0, 1 << 16, 1 << 32];

/// Every way to take three of some numbers, one after the other.
fn threes(numbers: &[usize]) -> impl Iterator<Item = [usize; 3]> + '_ {
    let pairs = |one: usize| numbers.iter().map(move |&two| (one, two));
    let all = numbers.iter().flat_map(move |&one| pairs(one));
    all.flat_map(|(one, two)| numbers.iter().map(move |&three| [one, two, three]))
}

/// The row that stands at a place. No two are the same, and none is due at its period's end.
fn row(place: usize) -> Row {
    let place = place as u64;
    Row {
        cost: 1 + place % 3,
        deadline: 200 + place,
        period: 500 + 3 * place,
    }
}

/// A call with columns of these lengths, a bound for each row that stands in all of them, and room for as many as the longest has.
fn with_lengths(entry: Entry, lengths: [usize; 3]) -> Call {
    let [costs, deadlines, periods] = lengths;
    let whole = costs.min(deadlines).min(periods);
    let longest = costs.max(deadlines).max(periods);
    let rows: Vec<Row> = (0..longest).map(row).collect();
    let call = Call {
        processors: 4,
        bounds: (0..whole).map(|place| row(place).deadline as u32).collect(),
        horizon: 300,
        room: room_needed(entry, longest),
        ..Call::of(entry)
    };
    let mut call = with_rows(call, &rows);
    for (column, length) in call.columns.iter_mut().zip(lengths) {
        column.truncate(length);
    }
    call
}

/// Every call with such columns.
fn calls(entry: Entry) -> impl Iterator<Item = Call> {
    let written_out = threes(&WRITTEN_OUT).map(move |lengths| with_lengths(entry, lengths));
    let behind = threes(&BEHIND).map(move |behind| {
        let mut call = with_lengths(entry, [3; 3]);
        call.behind.columns = behind;
        call
    });
    written_out.chain(behind)
}

/// The first of these calls that the proved program answers otherwise than a second one, in words.
pub fn first_difference(program: &Program, entry: Entry) -> Option<String> {
    let mut random = Random::of([WRITTEN_OUT.len() as u64]);
    calls(entry).find_map(|call| {
        let shown = difference_shown(&compared(program, &call, &mut random))?;
        Some(format!("{}\n{shown}", call_shown(&call)))
    })
}
