//! Wrong second programs: the right one with one part exchanged. The comparison must catch each, by the checks that it is there
//! for. The slips that the scope document lists are among them: by value, rounded up, toward zero, one round, a clean horizon.

/// A slip for each width: what is kept in so many bits, and the part that keeps it so.
macro_rules! kept_in {
    ($what:literal, $part:ident, $function:ident, [$($bits:literal),+]) => {
        [$((
            concat!("keeps ", $what, " in ", $bits, " bits"),
            |program| program.$part = $function::<$bits>,
        )),+]
    };
}

mod analysis;
mod checks;
mod columns;
mod demand;
mod density;
mod given_up;
mod late;
mod narrow;
mod pieces;
mod quick;
mod related;
mod taken;
mod text;
mod weights;

use crate::cases::Case;
use crate::far;
use crate::groups::EVERY_ENTRY;
use crate::lent::BY_COLUMNS;
use crate::relations::RELATIONS;
pub use demand::clean_horizon;
pub use density::named as density_slip;
pub use given_up::{busy_climb, deadline_search, passes};
pub use narrow::{
    begun_quotient, busy_sum, demand_product, demand_quotient, demand_sum, quick_rta_sum, rta_part,
    rta_sum, work_quotient, work_reach,
};
use second::call::Entry;
use second::program::{Program, DOCUMENT};

/// A slip: what a program with it does, and how it comes in.
pub type Slip = (&'static str, fn(&mut Program));

/// The checks that a wrong program is there for.
pub enum By {
    /// Answers of these entries held against the proved program's.
    Answers(&'static [Entry]),
    /// Answers held against each other, by the relation of this name.
    Relation(&'static str),
    /// Every text near a sheet's, by an entry that reads texts.
    NearTexts(Entry),
    /// Columns of every combination of lengths, by an entry that is given columns.
    Lengths(Entry),
    /// A fixed case.
    Case(Case),
}

/// A wrong program: the slip it has, its parts, and what is to catch it.
pub struct Wrong {
    pub slip: &'static str,
    pub program: Program,
    pub by: By,
}

/// The wrong program that a slip makes.
fn with((slip, exchange): Slip, by: By) -> Wrong {
    let mut program = DOCUMENT;
    exchange(&mut program);
    Wrong { slip, program, by }
}

/// The wrong programs whose slips the answers of these entries must show.
fn in_answers(entries: &'static [Entry], slips: &[Slip]) -> Vec<Wrong> {
    let shown = |&slip: &Slip| with(slip, By::Answers(entries));
    slips.iter().map(shown).collect()
}

/// The wrong programs whose slips the answers of each of these entries must show by themselves.
fn in_each(entries: &'static [Entry], slips: &[Slip]) -> Vec<Wrong> {
    let alone = entries.chunks(1);
    alone.flat_map(|entry| in_answers(entry, slips)).collect()
}

/// The entries that refine rows lent as triples.
const REFINING: [Entry; 3] = [Entry::RefineRounds, Entry::RefineAtOnce, Entry::WriteResult];

/// The entries that are given triples.
const WITH_WORDS: [Entry; 7] = [
    Entry::OneRow,
    Entry::RefineRounds,
    Entry::RefineAtOnce,
    Entry::OneProcessor,
    Entry::WriteSheet,
    Entry::WriteResult,
    Entry::Density,
];

/// The entries that answer by densities.
const BY_DENSITY: [Entry; 2] = [Entry::Density, Entry::DensityColumns];

/// The entries that are given a text.
const WITH_TEXT: [Entry; 2] = [Entry::ReadSheet, Entry::AnswerSheet];

/// The entries that are given a text, in pieces or at once.
pub const READING: [Entry; 3] = [Entry::Pieces, Entry::ReadSheet, Entry::AnswerSheet];

/// The entry that is given a sheet in pieces.
const IN_PIECES: [Entry; 1] = [Entry::Pieces];

/// The entries that write.
const WITH_ROOM: [Entry; 10] = [
    Entry::RefineRounds,
    Entry::RefineAtOnce,
    Entry::ReadSheet,
    Entry::WriteSheet,
    Entry::WriteResult,
    Entry::AnswerSheet,
    Entry::RefineRoundsColumns,
    Entry::RefineAtOnceColumns,
    Entry::WriteResultColumns,
    Entry::Pieces,
];

/// The entries that are given columns and write.
const COLUMNS_WITH_ROOM: [Entry; 3] = [
    Entry::RefineRoundsColumns,
    Entry::RefineAtOnceColumns,
    Entry::WriteResultColumns,
];

/// The entries that write a result sheet.
const WITH_RESULT: [Entry; 3] = [
    Entry::WriteResult,
    Entry::AnswerSheet,
    Entry::WriteResultColumns,
];

/// The slips in the lengths of columns.
fn in_lengths() -> Vec<Slip> {
    [columns::LENGTHS.to_vec(), taken::in_lengths()].concat()
}

/// The wrong programs whose slips answers must show, whichever entry gives them.
fn shown_by_any() -> Vec<Wrong> {
    let lists: [&[Slip]; 8] = [
        &analysis::SLIPS,
        &demand::SLIPS,
        &quick::SLIPS,
        &text::NEAR,
        &text::SLIPS,
        &checks::SLIPS,
        &late::SLIPS,
        &taken::slips(),
    ];
    in_answers(&EVERY_ENTRY, &lists.concat())
}

/// The wrong programs whose slips the answers of some entries must show, or of each of them.
fn shown_by_some() -> Vec<Wrong> {
    let lists = [
        in_answers(&[Entry::OneRow], &narrow::in_one_row()),
        in_answers(&[Entry::OneProcessor], &narrow::on_one_processor()),
        in_answers(&REFINING, &given_up::PASSES),
        in_answers(&[Entry::OneProcessor], &given_up::SEARCHES),
        in_each(&EVERY_ENTRY, &late::UNCHECKED),
        in_each(&WITH_RESULT, &late::ACCEPTED),
        in_each(&WITH_WORDS, &taken::in_words()),
        in_each(&BY_COLUMNS, &taken::in_columns()),
        in_each(&BY_COLUMNS, &columns::ROWS),
        in_each(&COLUMNS_WITH_ROOM, &columns::WRITING),
        in_answers(&BY_COLUMNS, &in_lengths()),
        in_each(&WITH_TEXT, &taken::in_text()),
        in_each(&WITH_ROOM, &taken::in_room()),
        in_each(&BY_DENSITY, &weights::COUNTED),
        in_answers(&BY_DENSITY, &density::ROUNDED),
        in_answers(&BY_DENSITY, &density::ANSWERED),
        in_each(&BY_DENSITY, &density::REFUSED),
        in_answers(&BY_DENSITY, &density::narrow()),
        in_answers(&IN_PIECES, &pieces::TAKING),
        in_answers(&IN_PIECES, &pieces::ENDING),
        in_answers(&IN_PIECES, &pieces::MADE_UP),
        in_answers(&IN_PIECES, &[pieces::LENGTH]),
    ];
    lists.into_iter().flatten().collect()
}

/// Every wrong program: of each relation, each entry that reads texts or columns, and each fixed case at least one.
pub fn wrong_programs() -> Vec<Wrong> {
    let relations = RELATIONS.iter().flat_map(|relation| {
        let shown = |slip| with(slip, By::Relation(relation.name));
        related::slips(relation.name).into_iter().map(shown)
    });
    let texts = READING
        .into_iter()
        .flat_map(|entry| text::NEAR.map(|slip| with(slip, By::NearTexts(entry))));
    let lengths = BY_COLUMNS.into_iter().flat_map(|entry| {
        in_lengths()
            .into_iter()
            .map(move |slip| with(slip, By::Lengths(entry)))
    });
    let far = far::cases().into_iter().flat_map(|far| {
        let shown = move |slip: Slip| with(slip, By::Case(far.case.clone()));
        far.slips.into_iter().map(shown)
    });
    let others = relations.chain(texts).chain(lengths).chain(far);
    let answers = shown_by_any().into_iter().chain(shown_by_some());
    answers.chain(others).collect()
}
