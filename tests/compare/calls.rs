//! Calls with right numbers, drawn for an entry from a kind of sheet.

use crate::lent::with_rows;
use crate::letters::in_some_case;
use second::call::{Call, Entry};
use second::checks::room_needed;
use second::one_processor::{verdict, Verdict};
use second::program::DOCUMENT;
use second::random::Random;
use second::rows::{words_of, Row, Sheet};
use second::writer::sheet_text;
use sheets::{sheet, Kind};

/// A call of an entry on a random sheet of a kind, with room for its answer and nothing wrong in it.
pub fn right_call(entry: Entry, kind: Kind, random: &mut Random) -> Call {
    let question = entry.question();
    let drawn = sheet_for(question, kind, random);
    let processors = drawn.processors as u32;
    let row = row_for(&drawn.rows, random);
    let call = Call {
        processors,
        method: method_for(question, kind, &drawn.rows, row, random),
        bounds: bounds_for(&drawn.rows, random),
        row: row as u32,
        horizon: if question == Entry::OneProcessor {
            horizon_for(kind, &drawn.rows, random)
        } else {
            1
        },
        text: text_for(question, &drawn, random),
        room: room_needed(question, drawn.rows.len()) + random.one_of(&[0, 0, 0, 1, 5]),
        ..Call::of(entry)
    };
    with_rows(call, &drawn.rows)
}

/// The sheet's text, in some case where it is given; none for the density test, whose calls are many and have no use for it.
fn text_for(entry: Entry, sheet: &Sheet, random: &mut Random) -> Vec<u8> {
    if entry == Entry::Density {
        return Vec::new();
    }
    let text = sheet_text(&DOCUMENT, sheet.processors as u32, &words_of(&sheet.rows)).into_bytes();
    match entry {
        Entry::ReadSheet | Entry::AnswerSheet | Entry::Pieces => in_some_case(text, random),
        _ => text,
    }
}

/// How many terms of sums are few enough to be tried value by value: in a pass, and for one row, which is asked only once; often,
/// and now and then.
const SOON_IN_A_PASS: [u64; 2] = [300_000, 6_000_000];
const SOON_FOR_A_ROW: [u64; 2] = [2_000_000, 40_000_000];

/// Whether a kind has sheets on which RTA, value by value, takes too long.
fn may_take_long(kind: Kind) -> bool {
    matches!(kind, Kind::Brimming | Kind::Crowd | Kind::Uneven)
}

/// Whether RTA, value by value, ends soon: for the row asked, or in a pass over all rows.
fn ends_soon(entry: Entry, rows: &[Row], row: usize, random: &mut Random) -> bool {
    let (asked, soon) = match entry {
        Entry::OneRow => (
            &rows[row..row + 1],
            SOON_FOR_A_ROW[random.once_in(4) as usize],
        ),
        _ => (rows, SOON_IN_A_PASS[random.once_in(40) as usize]),
    };
    let values: u64 = asked.iter().map(|row| row.deadline - row.cost + 1).sum();
    values * rows.len() as u64 <= soon
}

/// A sheet of a kind; where its text is answered, which is by RTA, one on which that ends soon.
fn sheet_for(entry: Entry, kind: Kind, random: &mut Random) -> Sheet {
    loop {
        let drawn = sheet(kind, random);
        let any = entry != Entry::AnswerSheet || !may_take_long(kind);
        if any || ends_soon(entry, &drawn.rows, 0, random) {
            return drawn;
        }
    }
}

/// The method asked for: RTA two times of three, where that ends soon.
fn method_for(entry: Entry, kind: Kind, rows: &[Row], row: usize, random: &mut Random) -> u32 {
    let method = random.one_of(&[0, 1, 1]);
    if may_take_long(kind) && !ends_soon(entry, rows, row, random) {
        return 0;
    }
    method
}

/// The row asked about: any, or the one with the most room between cost and deadline.
fn row_for(rows: &[Row], random: &mut Random) -> usize {
    let any = random.below(rows.len().max(1));
    let room = |&place: &usize| rows[place].deadline - rows[place].cost;
    let roomiest = (0..rows.len()).max_by_key(room);
    random.one_of(&[any, roomiest.unwrap_or(0)])
}

/// A bound for each row, from its cost to its deadline, the ends more often.
fn bounds_for(rows: &[Row], random: &mut Random) -> Vec<u32> {
    let mut draw = |row: &Row| {
        let between = random.within(row.cost, row.deadline);
        random.one_of(&[row.cost, row.deadline, row.deadline, between]) as u32
    };
    rows.iter().map(&mut draw).collect()
}

/// The largest horizon allowed.
const LARGEST: u64 = 16_777_216;

/// The longest horizon that rows of a kind are looked at with, so that looking at every length stays quick.
fn longest_horizon(kind: Kind, rows: &[Row], random: &mut Random) -> u64 {
    match kind {
        Kind::Brimming if random.once_in(16) => 2_000_000 / rows.len() as u64,
        Kind::Far => random.one_of(&[LARGEST, 1_500_000, 1_500_000, 1_500_000]),
        Kind::Close => random.one_of(&[20_000, 150_000, 500_000]),
        Kind::Tiny | Kind::Full => 400,
        _ => 1500,
    }
}

/// A horizon: short, long, or at and around the length where the verdict falls; where that is a miss, at times the largest,
/// since no length behind the miss is looked at.
fn horizon_for(kind: Kind, rows: &[Row], random: &mut Random) -> u32 {
    let longest = longest_horizon(kind, rows, random);
    let around = |length: u64, random: &mut Random| {
        (length + random.within(0, 2))
            .saturating_sub(1)
            .clamp(1, longest)
    };
    let horizon = match random.below(8) {
        0 => random.within(1, 12),
        1 => random.within(1, longest),
        2 => longest,
        choice => match verdict(&DOCUMENT, rows, longest) {
            Verdict::Undecided => longest,
            Verdict::Miss(_) if choice == 3 => LARGEST - random.within(0, 1),
            Verdict::Miss(length) | Verdict::Fits(length) => around(length, random),
        },
    };
    horizon as u32
}
