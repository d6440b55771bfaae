//! How the demand test divides. To count its divisions the same code is compiled once more, with a divide that notes each.

use std::cell::Cell;

/// What the demand test divides for.
pub trait Divide {
    /// The jobs of a row that can begin within a length, for the busy climb.
    fn begun(length: u32, period: u32) -> u32;
    /// The whole periods in a time of at least one, for a look at a row.
    fn whole(time: u32, period: u32) -> u32;
    /// A look at a row that is due, for which nothing has to be divided.
    fn spared();
}

/// Divides, and notes nothing.
pub struct Quiet;

impl Divide for Quiet {
    #[inline(always)]
    fn begun(length: u32, period: u32) -> u32 {
        length.div_ceil(period)
    }

    #[inline(always)]
    fn whole(time: u32, period: u32) -> u32 {
        time / period
    }

    #[inline(always)]
    fn spared() {}
}

/// How often the busy climb and the looks divided, and in how many looks at a row that is due nothing had to be divided.
#[derive(Clone, Copy, Default)]
pub struct Divisions {
    pub climb: u64,
    pub looks: u64,
    pub spared: u64,
}

thread_local! {
    static NOTED: Cell<Divisions> = Cell::default();
}

/// Notes one more.
fn note(more: impl Fn(&mut Divisions)) {
    let mut noted = NOTED.get();
    more(&mut noted);
    NOTED.set(noted);
}

/// Divides, and notes each division.
pub struct Counted;

impl Counted {
    /// What was noted since this was last asked.
    pub fn taken() -> Divisions {
        NOTED.take()
    }
}

impl Divide for Counted {
    fn begun(length: u32, period: u32) -> u32 {
        note(|noted| noted.climb += 1);
        Quiet::begun(length, period)
    }

    fn whole(time: u32, period: u32) -> u32 {
        note(|noted| noted.looks += 1);
        Quiet::whole(time, period)
    }

    fn spared() {
        note(|noted| noted.spared += 1);
    }
}
