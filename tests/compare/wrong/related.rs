//! Slips for each relation: a program with one of them contradicts itself there.

use super::analysis::costs;
use super::columns::taken_from;
use super::density;
use super::given_up::passes;
use super::late::accepted_by_first;
use super::pieces;
use super::text::{lower_case_from_zero, lower_case_text, upper_case_in_rows};
use super::Slip;
use second::call::{Call, Entry};
use second::one_row::rta;
use second::program::Program;
use second::reader::{read, Written};
use second::rows::Sheet;

/// The slips that a relation is to show, one at the least.
pub fn slips(relation: &str) -> Vec<Slip> {
    let named = SLIPS.iter().filter(|(name, _)| *name == relation);
    let mut slips: Vec<Slip> = named.map(|(_, slip)| *slip).collect();
    slips.extend(density::slips_of(relation));
    slips.extend(in_pieces(relation));
    if slips.is_empty() {
        slips.push(("does nothing wrong", |_| {}));
    }
    slips
}

/// The slips in taking a sheet in pieces that a relation is to show.
fn in_pieces(relation: &str) -> impl Iterator<Item = Slip> + '_ {
    let named = pieces::BY_RELATION.iter();
    let named = named.filter(move |(name, _)| *name == relation);
    named.map(|(_, slip)| *slip)
}

/// The slips, by the relations that are to show them.
const SLIPS: [(&str, Slip); 15] = [
    (
        "both engines end at the same bounds and marks",
        ("refines in rounds by BCL", |program| {
            program.taken = rounds_by_bcl
        }),
    ),
    (
        "RTA is never above BCL and marks what BCL marks",
        ("rounds up by RTA", |program| program.rta = rounded_up),
    ),
    (
        "every final bound and mark is its row's own answer",
        ("stops after one pass", |program| {
            program.refined = passes::<1>
        }),
    ),
    (
        "a result sheet says what the engines say",
        ("accepts without a look at row 63", |program| {
            program.accepted = accepted_by_first::<63>
        }),
    ),
    (
        "the end is the largest of all consistent sets",
        ("begins with the costs", |program| {
            program.first_bounds = costs
        }),
    ),
    (
        "the order of rows changes nothing",
        ("stops after one pass", |program| {
            program.refined = passes::<1>
        }),
    ),
    (
        "a processor more is never worse",
        (
            "takes two processors for three and three for two",
            |program| {
                program.divided = |sum, processors| sum / (processors ^ (processors & 2) >> 1)
            },
        ),
    ),
    (
        "a sheet written and read is the same",
        ("reads a processor more", |program| {
            program.read = processor_more
        }),
    ),
    (
        "the whole answer is reading and then the result sheet",
        ("reads a processor more", |program| {
            program.read = processor_more
        }),
    ),
    (
        "columns and triples get the same answer",
        (
            "takes the periods of columns for the deadlines too",
            |program| {
                program.row_in_columns = |columns, place| taken_from(columns, place, [0, 2, 2])
            },
        ),
    ),
    (
        "letter case changes no answer",
        ("counts lower case from 0", |program| {
            program.digit = lower_case_from_zero
        }),
    ),
    (
        "letter case changes no answer",
        ("refuses lower case in rows", |program| {
            program.read = upper_case_in_rows
        }),
    ),
    (
        "a sheet read and written comes back in upper case",
        ("writes lower case", |program| {
            program.number_text = lower_case_text
        }),
    ),
    (
        "sheets read as equal exactly where letter case is all that differs",
        ("reads every sheet for one processor", |program| {
            program.read = one_processor
        }),
    ),
    (
        "sheets read as equal exactly where letter case is all that differs",
        ("counts lower case from 0", |program| {
            program.digit = lower_case_from_zero
        }),
    ),
];

/// The call by BCL where it refines in rounds.
fn rounds_by_bcl(call: &Call) -> Call {
    let mut taken = call.clone();
    if call.entry == Entry::RefineRounds {
        taken.method = 0;
    }
    taken
}

/// RTA with the sum's part rounded up.
fn rounded_up(program: &Program, sheet: &Sheet, asked: usize, bounds: &[u64]) -> Option<u64> {
    let program = Program {
        divided: u64::div_ceil,
        ..*program
    };
    rta(&program, sheet, asked, bounds)
}

/// Reads a sheet with one processor more.
fn processor_more(program: &Program, text: &[u8]) -> Result<Written, usize> {
    let written = read(program, text)?;
    Ok(Written {
        processors: written.processors + 1,
        ..written
    })
}

/// Reads a sheet as one for one processor, whatever it says.
fn one_processor(program: &Program, text: &[u8]) -> Result<Written, usize> {
    let written = read(program, text)?;
    Ok(Written {
        processors: 1,
        ..written
    })
}
