//! What must hold of density answers: of each by the exact fractions, and between some of them.

use crate::exact::test_of;
use crate::lent::{row_at, row_count, set_row};
use crate::relations::Relation;
use crate::trial::Trial;
use second::call::{Call, Entry};
use second::random::Random;
use sheets::Kind;

/// The answers' numbers.
pub const UNSURE: u64 = 0;
pub const YES: u64 = 1;
pub const NO: u64 = 2;

/// A relation of density answers to right calls of both entries.
const fn of_densities(
    name: &'static str,
    broken: fn(Trial, &Call, &mut Random) -> Option<String>,
) -> Relation {
    Relation {
        name,
        entries: &[Entry::Density, Entry::DensityColumns],
        kinds: &[
            Kind::Balanced,
            Kind::Tiny,
            Kind::Full,
            Kind::Edges,
            Kind::Crowd,
        ],
        wrong: &[false],
        times: 1,
        broken,
    }
}

/// Yes and no against the exact fractions.
pub const TRUE: Relation = of_densities("a density answer is true of the exact fractions", untrue);

/// Unsure against the exact fractions.
pub const NEAR: Relation = of_densities("unsure comes near the limit only", unsure_far_away);

/// The same rows in another order.
pub const IN_ANY_ORDER: Relation =
    of_densities("the order of rows changes no density answer", order_matters);

/// The same rows on one processor more.
pub const NO_WORSE: Relation = of_densities(
    "a processor more makes no density answer worse",
    processor_hurts,
);

/// The same rows on one processor by the exact test.
pub const NO_MISS: Relation = of_densities(
    "rows with a yes on one processor have no miss",
    missed_in_spite,
);

/// The answer of the program on trial; none where the call is refused.
fn answered(trial: Trial, call: &Call, random: &mut Random) -> Option<u64> {
    let numbers = trial.made(call, random).numbers;
    (numbers[0] == 0).then_some(numbers[2])
}

/// Yes where the exact left side is above the limit, or no where it is not.
fn untrue(trial: Trial, call: &Call, random: &mut Random) -> Option<String> {
    let answer = answered(trial, call, random)?;
    let test = test_of(call);
    let side = test.left_side().against(test.limit());
    let holds = match answer {
        YES => side.is_le(),
        NO => side.is_gt(),
        _ => true,
    };
    (!holds).then(|| format!("answer {answer}, and the exact left side is {side:?}"))
}

/// Unsure as many billionths away from the limit as the rules name, or farther than rounding can reach, or an answer that is none.
fn unsure_far_away(trial: Trial, call: &Call, random: &mut Random) -> Option<String> {
    let answer = answered(trial, call, random)?;
    let test = test_of(call);
    let left = test.left_side();
    let is_near = test.is_within(&left, test.distance()) && test.is_within(&left, test.reach());
    let holds = match answer {
        UNSURE => is_near,
        _ => answer == YES || answer == NO,
    };
    (!holds).then(|| format!("answer {answer}, farther away than {}", test.reach()))
}

/// Two answers in words, where they may not be so.
fn apart(holds: bool, one: u64, what: &str, other: u64) -> Option<String> {
    (!holds).then(|| format!("answer {one}; {what} {other}"))
}

/// Another answer to the same rows in another order.
fn order_matters(trial: Trial, call: &Call, random: &mut Random) -> Option<String> {
    let straight = answered(trial, call, random)?;
    let mut mixed = call.clone();
    for (place, from) in random.order(row_count(call)).into_iter().enumerate() {
        set_row(&mut mixed, place, row_at(call, from));
    }
    let other = answered(trial, &mixed, random)?;
    apart(straight == other, straight, "in another order", other)
}

/// How bad an answer is.
fn badness(answer: u64) -> u64 {
    match answer {
        YES => 0,
        UNSURE => 1,
        _ => 2,
    }
}

/// A worse answer on one processor more. No density is above 1, so the right side gains at least as much as the left.
fn processor_hurts(trial: Trial, call: &Call, random: &mut Random) -> Option<String> {
    let more = Call {
        processors: call.processors + 1,
        ..call.clone()
    };
    let without = answered(trial, call, random)?;
    let with = answered(trial, &more, random)?;
    let holds = badness(with) <= badness(without);
    apart(holds, without, "on one processor more", with)
}

/// A miss of rows whose densities come to at most 1: a row's demand in a length is at most its density's part of it.
fn missed_in_spite(trial: Trial, call: &Call, random: &mut Random) -> Option<String> {
    let alone = Call {
        processors: 1,
        ..call.clone()
    };
    let demand = Call {
        entry: match call.entry {
            Entry::Density => Entry::OneProcessor,
            _ => Entry::OneProcessorColumns,
        },
        horizon: random.within(1, 1_500) as u32,
        ..call.clone()
    };
    let answer = answered(trial, &alone, random)?;
    let missed = answer == YES && answered(trial, &demand, random)? == 1;
    apart(!missed, answer, "by demand", 1)
}
