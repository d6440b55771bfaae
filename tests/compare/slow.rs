//! Whether the slow sheets that are drawn are slow: else a comparison over them would show little.

use second::program::DOCUMENT;
use second::random::Random;
use second::refine::{first_bounds, pass};
use second::rows::Sheet;
use sheets::{sheet, Kind};

/// How many sheets are drawn.
const SHEETS: usize = 400;

/// How many of them take many passes at the least.
const SLOW: usize = 40;

/// How many passes are many.
const MANY: usize = 100;

/// Whether a sheet takes more than many passes by RTA, rows 0 upward.
fn takes_many_passes(sheet: &Sheet) -> bool {
    let mut bounds = first_bounds(&sheet.rows);
    let order: Vec<usize> = (0..bounds.len()).collect();
    (0..MANY).all(|_| pass(&DOCUMENT, sheet, 1, &order, &mut bounds))
}

/// How many of the sheets drawn take many passes, in words, where these are too few.
pub fn too_quick(seed: u64) -> Option<String> {
    let mut random = Random::of([seed]);
    let drawn = (0..SHEETS).map(|_| sheet(Kind::Slow, &mut random));
    let slow = drawn.filter(takes_many_passes).count();
    println!("slow sheets: {slow} of {SHEETS} take {MANY} passes or more");
    (slow < SLOW).then(|| format!("fewer than {SLOW} of them"))
}
