//! What must hold between answers of one program, whatever they are.

use crate::cuts;
use crate::densities;
use crate::lent::{in_triples, BY_COLUMNS};
use crate::letters;
use crate::trial::Trial;
use guarded::Seen;
use second::call::{Call, Entry};
use second::checks::{room_needed, rows_in};
use second::largest::{how_many_sets, largest};
use second::program::DOCUMENT;
use second::random::Random;
use second::rows::Sheet;
use sheets::Kind;

/// A relation: its name, the entries, kinds of sheet and sorts of numbers, right or wrong, that its calls are drawn for, how many
/// times as often as most, and the test, which tells what is wrong where something is.
#[derive(Clone, Copy)]
pub struct Relation {
    pub name: &'static str,
    pub entries: &'static [Entry],
    pub kinds: &'static [Kind],
    pub wrong: &'static [bool],
    pub times: usize,
    pub broken: fn(Trial, &Call, &mut Random) -> Option<String>,
}

/// A relation between answers about the rows of right calls, tried as often as most.
pub const fn between(
    name: &'static str,
    broken: fn(Trial, &Call, &mut Random) -> Option<String>,
) -> Relation {
    Relation {
        name,
        entries: &[Entry::RefineAtOnce],
        kinds: QUICK,
        wrong: &[false],
        times: 1,
        broken,
    }
}

/// Kinds whose refinement is quick.
const QUICK: &[Kind] = &[
    Kind::Tiny,
    Kind::Middle,
    Kind::Heavy,
    Kind::Light,
    Kind::Exponential,
    Kind::Climbing,
    Kind::Full,
    Kind::Slow,
    Kind::Large,
    Kind::Late,
    Kind::Brimming,
    Kind::Crowd,
    Kind::Uneven,
];

/// Kinds of few rows and of many, of too many and of none, and for the density test of rows near its limit.
const OF_ALL_LENGTHS: &[Kind] = &[
    Kind::Tiny,
    Kind::Middle,
    Kind::Heavy,
    Kind::Light,
    Kind::Exponential,
    Kind::Full,
    Kind::Edges,
    Kind::Counts,
    Kind::Large,
    Kind::Late,
    Kind::Crowd,
    Kind::Balanced,
];

/// How many times as often the engines are held together: 100,000 checks and more in the gate's run.
const OFTEN: usize = 25;

/// Every relation.
pub const RELATIONS: [Relation; 22] = [
    Relation {
        times: OFTEN,
        ..between(
            "both engines end at the same bounds and marks",
            engines_differ,
        )
    },
    between(
        "RTA is never above BCL and marks what BCL marks",
        rta_above_bcl,
    ),
    between(
        "every final bound and mark is its row's own answer",
        not_consistent,
    ),
    between("a result sheet says what the engines say", result_apart),
    Relation {
        kinds: &[Kind::Tiny],
        times: 4,
        ..between("the end is the largest of all consistent sets", not_largest)
    },
    between("the order of rows changes nothing", order_matters),
    between("a processor more is never worse", processor_hurts),
    between("a sheet written and read is the same", not_back),
    between(
        "the whole answer is reading and then the result sheet",
        answer_apart,
    ),
    Relation {
        entries: &BY_COLUMNS,
        kinds: OF_ALL_LENGTHS,
        wrong: &[false, true],
        ..between("columns and triples get the same answer", layouts_differ)
    },
    letters::NO_MATTER,
    letters::COMES_BACK,
    letters::READ_AS_EQUAL,
    densities::TRUE,
    densities::NEAR,
    densities::IN_ANY_ORDER,
    densities::NO_WORSE,
    densities::NO_MISS,
    cuts::AS_A_WHOLE,
    cuts::IN_ANY_CUT,
    cuts::HANDED_ON,
    cuts::ENDED,
];

/// The same sheet asked by another entry, with just the room that its answer takes.
fn asked(call: &Call, entry: Entry) -> Call {
    Call {
        entry,
        room: room_needed(entry, call.words.len() / 3),
        ..call.clone()
    }
}

/// What refining by an engine and a method gives.
fn refined(trial: Trial, call: &Call, entry: Entry, method: u32, random: &mut Random) -> Seen {
    trial.made(
        &Call {
            method,
            ..asked(call, entry)
        },
        random,
    )
}

/// The sheet's own method by both engines.
fn engines_differ(trial: Trial, call: &Call, random: &mut Random) -> Option<String> {
    let rounds = refined(trial, call, Entry::RefineRounds, call.method, random);
    let at_once = refined(trial, call, Entry::RefineAtOnce, call.method, random);
    let same = rounds.numbers == at_once.numbers
        && (rounds.numbers[0] != 0 || rounds.after == at_once.after);
    (!same).then(|| {
        format!(
            "rounds {:?} {:?}, at once {:?} {:?}",
            rounds.numbers, rounds.after, at_once.numbers, at_once.after
        )
    })
}

/// Whether one refinement's bounds are nowhere above the other's and its marks cover the other's.
fn is_better(one: &Seen, other: &Seen) -> bool {
    let below = one.after.iter().zip(&other.after).all(|(a, b)| a <= b);
    below && one.numbers[2] & other.numbers[2] == other.numbers[2]
}

/// RTA against BCL, by the at-once engine.
fn rta_above_bcl(trial: Trial, call: &Call, random: &mut Random) -> Option<String> {
    let rta = refined(trial, call, Entry::RefineAtOnce, 1, random);
    let bcl = refined(trial, call, Entry::RefineAtOnce, 0, random);
    let holds = rta.numbers[0] != 0 || is_better(&rta, &bcl);
    (!holds).then(|| {
        format!(
            "RTA {:?} {:?}, BCL {:?} {:?}",
            rta.numbers, rta.after, bcl.numbers, bcl.after
        )
    })
}

/// Both engines.
const ENGINES: [Entry; 2] = [Entry::RefineRounds, Entry::RefineAtOnce];

/// Where either engine ends: each row's own answer under the final bounds.
fn not_consistent(trial: Trial, call: &Call, random: &mut Random) -> Option<String> {
    ENGINES
        .iter()
        .find_map(|&engine| end_not_consistent(trial, call, engine, random))
}

/// The one-row question of every row under an engine's final bounds: the bound of a marked row, none and the deadline of another.
fn end_not_consistent(
    trial: Trial,
    call: &Call,
    engine: Entry,
    random: &mut Random,
) -> Option<String> {
    let end = refined(trial, call, engine, call.method, random);
    if end.numbers[0] != 0 {
        return None;
    }
    let bounds: Vec<u32> = end.after.iter().map(|&bound| bound as u32).collect();
    let wrong = |&row: &usize| {
        let question = Call {
            bounds: bounds.clone(),
            row: row as u32,
            ..asked(call, Entry::OneRow)
        };
        let marked = end.numbers[2] >> row & 1 == 1;
        let due = if marked { end.after[row] } else { 0 };
        let unmarked_below_deadline = !marked && bounds[row] != call.words[3 * row + 1];
        trial.made(&question, random).numbers != [0, 0, due] || unmarked_below_deadline
    };
    let row = (0..bounds.len()).find(wrong)?;
    Some(format!(
        "row {row} under the final bounds {bounds:?}, marks {:X}",
        end.numbers[2]
    ))
}

/// The result sheet, and what either engine says written as one: accepted exactly if the marks are those of all rows.
fn result_apart(trial: Trial, call: &Call, random: &mut Random) -> Option<String> {
    let result = trial.made(&asked(call, Entry::WriteResult), random);
    ENGINES.iter().find_map(|&engine| {
        let end = refined(trial, call, engine, call.method, random);
        let holds = end.numbers[0] != 0 || bytes_of(&result) == told(&end);
        (!holds).then(|| {
            format!(
                "result sheet {:?}, marks {:X}, bounds {:?}",
                String::from_utf8_lossy(&bytes_of(&result)),
                end.numbers[2],
                end.after
            )
        })
    })
}

/// The result sheet that an engine's marks and bounds come to.
fn told(end: &Seen) -> Vec<u8> {
    let rows = end.after.len();
    let marks = end.numbers[2];
    let line = |row: usize| format!("12{:02X}{:06X}\n", marks >> row & 1, end.after[row]);
    let accepted = marks.count_ones() as usize == rows;
    let lines: String = (0..rows).map(line).collect();
    format!("11{:02X}{rows:02X}\n{lines}", accepted as u8).into_bytes()
}

/// The final bounds against the largest consistent set, found by trying every set, where there are not too many.
fn not_largest(trial: Trial, call: &Call, random: &mut Random) -> Option<String> {
    let end = refined(trial, call, Entry::RefineAtOnce, call.method, random);
    let sheet = Sheet {
        rows: rows_in(&DOCUMENT, &call.words),
        processors: call.processors as u64,
    };
    if end.numbers[0] != 0 || how_many_sets(&sheet) > 1000 {
        return None;
    }
    let found = largest(&DOCUMENT, &sheet, call.method);
    (found.as_ref() != Some(&end.after)).then(|| {
        format!(
            "final bounds {:?}, largest consistent set {found:?}",
            end.after
        )
    })
}

/// The sheet with its rows in another order: each row keeps its bound and its mark.
fn order_matters(trial: Trial, call: &Call, random: &mut Random) -> Option<String> {
    let straight = refined(trial, call, Entry::RefineAtOnce, call.method, random);
    let order = random.order(call.words.len() / 3);
    let words = order
        .iter()
        .flat_map(|&row| call.words[3 * row..3 * row + 3].to_vec())
        .collect();
    let mixed = refined(
        trial,
        &Call {
            words,
            ..call.clone()
        },
        Entry::RefineAtOnce,
        call.method,
        random,
    );
    if straight.numbers[0] != 0 {
        return None;
    }
    let mark = |seen: &Seen, row: usize| seen.numbers[2] >> row & 1;
    let kept = |(place, &row): (usize, &usize)| {
        mixed.after[place] == straight.after[row] && mark(&mixed, place) == mark(&straight, row)
    };
    let holds = order.iter().enumerate().all(kept);
    (!holds).then(|| {
        format!(
            "bounds {:?}; in the order {order:?} {:?}",
            straight.after, mixed.after
        )
    })
}

/// The sheet on one processor more.
fn processor_hurts(trial: Trial, call: &Call, random: &mut Random) -> Option<String> {
    let more = Call {
        processors: call.processors + 1,
        ..call.clone()
    };
    let with = refined(trial, &more, Entry::RefineAtOnce, call.method, random);
    let without = refined(trial, call, Entry::RefineAtOnce, call.method, random);
    let holds = with.numbers[0] != 0 || without.numbers[0] != 0 || is_better(&with, &without);
    (!holds).then(|| {
        format!(
            "bounds {:?}; on one processor more {:?}",
            without.after, with.after
        )
    })
}

/// The sheet written and read back.
fn not_back(trial: Trial, call: &Call, random: &mut Random) -> Option<String> {
    let written = trial.made(&asked(call, Entry::WriteSheet), random);
    if written.numbers[0] != 0 {
        return None;
    }
    let reading = Call {
        text: bytes_of(&written),
        ..asked(call, Entry::ReadSheet)
    };
    let read = trial.made(&reading, random);
    let words: Vec<u64> = call.words.iter().map(|&word| word as u64).collect();
    let numbers = [0, 0, call.processors as u64, words.len() as u64 / 3];
    let same = read.numbers == numbers && read.after == words;
    (!same).then(|| format!("read back {:?} {:?}", read.numbers, read.after))
}

/// The whole answer to the sheet's text, and the RTA result sheet of its rows.
fn answer_apart(trial: Trial, call: &Call, random: &mut Random) -> Option<String> {
    let text = bytes_of(&trial.made(&asked(call, Entry::WriteSheet), random));
    let whole = trial.made(
        &Call {
            text,
            ..asked(call, Entry::AnswerSheet)
        },
        random,
    );
    let result = trial.made(
        &Call {
            method: 1,
            ..asked(call, Entry::WriteResult)
        },
        random,
    );
    let holds =
        result.numbers[0] != 0 || (whole.numbers == result.numbers && whole.after == result.after);
    (!holds).then(|| {
        format!(
            "whole answer {:?}, result sheet {:?}",
            whole.numbers, result.numbers
        )
    })
}

/// The same rows in columns and in triples: the same numbers, and at each place of the output the same, or what was there.
fn layouts_differ(trial: Trial, call: &Call, random: &mut Random) -> Option<String> {
    let triples = trial.made(&in_triples(call)?, random);
    let columns = trial.made(call, random);
    (!answered_alike(&triples, &columns)).then(|| {
        format!(
            "triples {:?} {:?}, columns {:?} {:?}",
            triples.numbers, triples.after, columns.numbers, columns.after
        )
    })
}

/// Whether two calls returned the same numbers, and left at each place of the output the same, or what was there.
pub fn answered_alike(one: &Seen, other: &Seen) -> bool {
    let left_alone = |seen: &Seen, place: usize| seen.after[place] == seen.before[place];
    let same_at = |place: usize| {
        one.after[place] == other.after[place] || left_alone(one, place) && left_alone(other, place)
    };
    one.numbers == other.numbers && (0..one.after.len()).all(same_at)
}

/// The lent output of a call as bytes.
pub fn bytes_of(seen: &Seen) -> Vec<u8> {
    seen.after.iter().map(|&byte| byte as u8).collect()
}
