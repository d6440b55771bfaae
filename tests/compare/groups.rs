//! The groups that checks are counted in: an entry, a kind of sheet, and right or wrong numbers; or a relation and a kind.

use crate::calls::right_call;
use crate::difference::compared;
use crate::pieces::in_steps;
use crate::relations::{Relation, RELATIONS};
use crate::show::difference_shown;
use crate::spoil::spoiled;
use crate::trial::Trial;
use second::call::{Call, Entry};
use second::random::Random;
use sheets::{Kind, KINDS};

/// What a group looks at: an entry's answer against the second program's, or a relation between answers.
#[derive(Clone, Copy)]
enum Look {
    Answer,
    Between(Relation),
}

/// A group of checks: its entry and kind, whether its numbers are wrong, what it looks at, and how many checks a round makes.
#[derive(Clone, Copy)]
pub struct Group {
    entry: Entry,
    kind: Kind,
    wrong: bool,
    look: Look,
    pub checks: usize,
}

/// Every entry, by its name in words.
pub const ENTRIES: [(Entry, &str); 16] = [
    (Entry::OneRow, "one row"),
    (Entry::RefineRounds, "refine in rounds"),
    (Entry::RefineAtOnce, "refine at once"),
    (Entry::OneProcessor, "one processor"),
    (Entry::ReadSheet, "read a sheet"),
    (Entry::WriteSheet, "write a sheet"),
    (Entry::WriteResult, "write a result sheet"),
    (Entry::AnswerSheet, "answer a sheet"),
    (Entry::OneRowColumns, "columns: one row"),
    (Entry::RefineRoundsColumns, "columns: refine in rounds"),
    (Entry::RefineAtOnceColumns, "columns: refine at once"),
    (Entry::OneProcessorColumns, "columns: one processor"),
    (Entry::WriteResultColumns, "columns: write a result sheet"),
    (Entry::Density, "density"),
    (Entry::DensityColumns, "columns: density"),
    (Entry::Pieces, "a sheet in pieces"),
];

/// Every entry.
pub static EVERY_ENTRY: [Entry; 16] = {
    use Entry::*;
    [
        OneRow,
        RefineRounds,
        RefineAtOnce,
        OneProcessor,
        ReadSheet,
        WriteSheet,
        WriteResult,
        AnswerSheet,
        OneRowColumns,
        RefineRoundsColumns,
        RefineAtOnceColumns,
        OneProcessorColumns,
        WriteResultColumns,
        Density,
        DensityColumns,
        Pieces,
    ]
};

/// An entry's name in words.
pub fn entry_name(entry: Entry) -> &'static str {
    let named = ENTRIES.iter().find(|(listed, _)| *listed == entry);
    named.map_or("", |(_, name)| name)
}

/// Whether refining is part of an entry's answer.
fn refines(entry: Entry) -> bool {
    use Entry::*;
    matches!(
        entry.question(),
        RefineRounds | RefineAtOnce | WriteResult | AnswerSheet
    )
}

/// The checks of a kind in a round: many where the second program is quick, few where it is slow.
fn checks_of_kind(kind: Kind) -> usize {
    match kind {
        Kind::Tiny => 80,
        Kind::Middle | Kind::Full | Kind::Counts => 20,
        Kind::Climbing => 10,
        Kind::Slow => 8,
        Kind::Edges | Kind::Exponential => 5,
        Kind::Light | Kind::Heavy | Kind::Large => 3,
        Kind::Brimming => 2,
        Kind::Far | Kind::Late | Kind::Crowd | Kind::Uneven | Kind::Close => 1,
        Kind::Balanced => 32,
    }
}

/// The checks of a question on a kind in a round. Rows that leave one processor busy for long are not refined: value by value, two
/// of them can take days. Where large sums are met, one row is asked about more often than a whole sheet is refined. Balanced sheets
/// are for the density test, and it is asked about few others, for it does one thing only.
fn checks_of_question(entry: Entry, kind: Kind) -> usize {
    match kind {
        Kind::Balanced if entry != Entry::Density => 0,
        Kind::Balanced => checks_of_kind(kind),
        _ if entry == Entry::Density => checks_of_kind(kind).div_ceil(8),
        Kind::Counts => checks_of_kind(kind),
        _ if entry == Entry::Pieces => checks_of_kind(kind).div_ceil(2),
        Kind::Far | Kind::Close if refines(entry) => 0,
        Kind::Brimming | Kind::Crowd | Kind::Uneven if entry == Entry::OneRow => 5,
        Kind::Heavy if refines(entry) => 1,
        _ => checks_of_kind(kind),
    }
}

/// The checks of an entry on a kind in a round, with right numbers or wrong ones. With columns there are fewer than with triples, for
/// the questions are the same: as many where the row count matters, more with wrong numbers, which are soon refused, and none where
/// the horizon is long and the second program slow. Of balanced sheets more have right numbers: near the limit it is the answer that
/// counts.
fn checks_of_entry(entry: Entry, kind: Kind, wrong: bool) -> usize {
    let checks = checks_of_question(entry.question(), kind);
    match (entry.takes_columns(), kind) {
        (_, Kind::Balanced) if wrong => checks.div_ceil(4),
        (true, Kind::Balanced) => checks.div_ceil(2),
        (false, _) | (true, Kind::Counts) => checks,
        (true, Kind::Far) => 0,
        (true, _) if wrong => checks.div_ceil(2),
        (true, _) => checks.div_ceil(4),
    }
}

/// The groups that hold entries against the second program.
fn answer_groups() -> Vec<Group> {
    let mut groups = Vec::new();
    for (entry, _) in ENTRIES {
        for kind in KINDS {
            groups.extend([false, true].map(|wrong| Group {
                entry,
                kind,
                wrong,
                look: Look::Answer,
                checks: checks_of_entry(entry, kind, wrong),
            }));
        }
    }
    groups.retain(|group| group.checks > 0);
    groups
}

/// The groups that hold answers by a relation against each other.
fn groups_of(relation: Relation) -> Vec<Group> {
    let mut groups = Vec::new();
    for &entry in relation.entries {
        for &kind in relation.kinds {
            let checks = checks_of_question(entry.question(), kind);
            groups.extend(relation.wrong.iter().map(|&wrong| Group {
                entry,
                kind,
                wrong,
                look: Look::Between(relation),
                checks: relation.times * checks.div_ceil(4 * relation.entries.len()),
            }));
        }
    }
    groups.retain(|group| group.checks > 0);
    groups
}

/// Where a group stands. What is drawn hangs on its place: those of the density test come behind the others, and those of sheets in pieces
/// last, so that the others draw what they drew before these were there.
fn standing(group: &Group) -> usize {
    match group.entry.question() {
        Entry::Pieces => 2,
        Entry::Density => 1,
        _ => 0,
    }
}

/// Every group.
pub fn every_group() -> Vec<Group> {
    let relations = RELATIONS.into_iter().flat_map(groups_of);
    let mut groups: Vec<Group> = answer_groups().into_iter().chain(relations).collect();
    groups.sort_by_key(standing);
    groups
}

impl Group {
    /// A call of this group.
    pub fn call(&self, random: &mut Random) -> Call {
        let call = right_call(self.entry, self.kind, random);
        match (self.entry, self.wrong) {
            (Entry::Pieces, wrong) => in_steps(call, wrong, random),
            (_, true) => spoiled(call, random),
            (_, false) => call,
        }
    }

    /// What is wrong with a call, if something is: a difference between the two programs, or a relation broken.
    pub fn trouble(&self, trial: Trial, call: &Call, random: &mut Random) -> Option<String> {
        match self.look {
            Look::Answer => difference_shown(&compared(trial.second(), call, random)),
            Look::Between(relation) => (relation.broken)(trial, call, random),
        }
    }

    /// Whether the group holds answers of one of these entries against the second program's.
    pub fn holds_answers(&self, entries: &[Entry]) -> bool {
        matches!(self.look, Look::Answer) && entries.contains(&self.entry)
    }

    /// Whether the group holds answers against each other by the relation of a name.
    pub fn is_by(&self, name: &str) -> bool {
        matches!(self.look, Look::Between(relation) if relation.name == name)
    }

    /// What the group is about: an entry, or a relation.
    pub fn subject(&self) -> &'static str {
        match self.look {
            Look::Answer => entry_name(self.entry),
            Look::Between(relation) => relation.name,
        }
    }

    /// The group in words.
    pub fn name(&self) -> String {
        let kind = format!("{:?}", self.kind).to_lowercase();
        let numbers = if self.wrong { "wrong" } else { "right" };
        format!("{}, {kind} sheets, {numbers} numbers", self.subject())
    }
}
