//! What must hold between the states and answers of sheets in pieces, whatever they are.

use crate::pieces::cut;
use crate::relations::{between, Relation};
use crate::trial::{Trial, LOOKED_AT};
use guarded::Seen;
use second::call::{Call, Entry, Step};
use second::random::Random;
use second::state::NUMBERS;
use sheets::Kind;

/// A relation of sheets in pieces, right ones and others, of few rows and of many.
const fn of_pieces(
    name: &'static str,
    broken: fn(Trial, &Call, &mut Random) -> Option<String>,
) -> Relation {
    Relation {
        entries: &[Entry::Pieces],
        kinds: &[
            Kind::Tiny,
            Kind::Middle,
            Kind::Full,
            Kind::Edges,
            Kind::Counts,
            Kind::Large,
        ],
        wrong: &[false, true],
        ..between(name, broken)
    }
}

/// A sheet in pieces is read as all its bytes at once.
pub const AS_A_WHOLE: Relation = of_pieces(
    "a sheet in pieces is read as its whole text",
    apart_from_whole,
);

/// After the same bytes the state is the same.
pub const IN_ANY_CUT: Relation = of_pieces("the cut changes no state", cut_matters);

/// A state that is handed on is all that is kept.
pub const HANDED_ON: Relation =
    of_pieces("a state handed on goes on as the run does", kept_elsewhere);

/// The end is the last word.
pub const ENDED: Relation = of_pieces("behind the end nothing changes", changed_behind);

/// The states of a run: the first, and that behind each step.
fn states(seen: &Seen) -> Vec<&[u64]> {
    seen.numbers.chunks_exact(NUMBERS).collect()
}

/// The first steps of a call, with the bytes that come by them.
fn first_steps(call: &Call, count: usize) -> Call {
    let mut first = call.clone();
    first.steps.truncate(count);
    let lengths = first.pieces().into_iter().map(|(_, piece)| piece.len());
    let came = lengths.sum();
    first.text.truncate(came);
    first
}

/// The pieces of a call before its first end, and no more bytes than theirs.
fn before_the_end(call: &Call) -> Call {
    let is_end = |step: &Step| matches!(step, Step::End(_));
    let pieces = call.steps.iter().position(is_end);
    let mut open = first_steps(call, pieces.unwrap_or(call.steps.len()));
    open.behind.text = 0;
    open
}

/// Where the parts of a run's output begin, one for each end, and where the last ends.
fn part_starts(call: &Call) -> Vec<usize> {
    let mut starts = vec![0];
    for room in call.rooms() {
        starts.push(starts[starts.len() - 1] + room.min(LOOKED_AT));
    }
    starts
}

/// Whether two outputs, of one length, are left the same at each place, or as they were in both.
fn left_alike(one: &Seen, other: &Seen, from: usize) -> bool {
    let (before, after) = (&one.before[from..], &one.after[from..]);
    let as_it_was =
        |place: usize| before[place] == after[place] && other.before[place] == other.after[place];
    let same = |place: usize| after[place] == other.after[place] || as_it_was(place);
    after.len() == other.after.len() && (0..after.len()).all(same)
}

/// The sheet in pieces from the start on and then ended, and its bytes read at once with the same room.
fn apart_from_whole(trial: Trial, call: &Call, random: &mut Random) -> Option<String> {
    let mut pieces = Call {
        state: Vec::new(),
        ..before_the_end(call)
    };
    pieces.steps.push(Step::End(call.room));
    let whole = Call {
        entry: Entry::ReadSheet,
        ..pieces.clone()
    };
    let whole = trial.made(&whole, random);
    let pieces = trial.made(&pieces, random);
    let told = &pieces.numbers[pieces.numbers.len() - whole.numbers.len()..];
    let holds = told == whole.numbers && left_alike(&pieces, &whole, 0);
    (!holds).then(|| format!("in pieces {told:?}, as a whole {:?}", whole.numbers))
}

/// The offset behind each step of a call in pieces, and the state there, the first one included.
fn by_offset<'a>(call: &Call, seen: &'a Seen) -> Vec<(usize, &'a [u64])> {
    let mut offsets = vec![0];
    for (_, piece) in call.pieces() {
        offsets.push(offsets[offsets.len() - 1] + piece.len());
    }
    offsets.into_iter().zip(states(seen)).collect()
}

/// The pieces of a call, and the same bytes in another cut or all at once: the states behind the same bytes.
fn cut_matters(trial: Trial, call: &Call, random: &mut Random) -> Option<String> {
    let one = before_the_end(call);
    let length = one.text.len();
    let steps = match random.below(2) {
        0 => vec![Step::Piece(length)],
        _ => cut(length, random),
    };
    let other = Call {
        steps,
        ..one.clone()
    };
    let (seen_one, seen_other) = (trial.made(&one, random), trial.made(&other, random));
    let others = by_offset(&other, &seen_other);
    let differs = |(offset, state): &(usize, &[u64])| {
        others
            .iter()
            .any(|(at, there)| at == offset && there != state)
    };
    let (offset, _) = by_offset(&one, &seen_one).into_iter().find(differs)?;
    Some(format!(
        "behind {offset} bytes the state is another than in the cut {:?}",
        other.steps
    ))
}

/// The call, and the same from one of its states on: the states and what is written from there on.
fn kept_elsewhere(trial: Trial, call: &Call, random: &mut Random) -> Option<String> {
    let place = random.below(call.steps.len() + 1);
    let whole = trial.made(call, random);
    let first = first_steps(call, place);
    let state = states(&whole)[place].iter();
    let rest = Call {
        state: state.map(|&number| number as u32).collect(),
        text: call.text[first.text.len()..].to_vec(),
        steps: call.steps[place..].to_vec(),
        ..call.clone()
    };
    let seen = trial.made(&rest, random);
    let from = part_starts(&first)[first.rooms().len()];
    let same = states(&whole)[place..] == states(&seen)[..] && left_alike(&whole, &seen, from);
    (!same).then(|| format!("from the state behind step {place} on it goes on otherwise"))
}

/// The call ended, and then all its bytes once more and an end with room: neither states nor words change behind the first end.
fn changed_behind(trial: Trial, call: &Call, random: &mut Random) -> Option<String> {
    let mut longer = call.clone();
    longer.behind.text = 0;
    longer.text.extend(&call.text);
    longer.steps.push(Step::End(call.room));
    longer.steps.push(Step::Piece(call.text.len()));
    longer.steps.push(Step::End(192));
    let seen = trial.made(&longer, random);
    let is_end = |step: &Step| matches!(step, Step::End(_));
    let first = longer.steps.iter().position(is_end)? + 1;
    let states = states(&seen);
    let from = part_starts(&longer)[1];
    let holds = states[first..].iter().all(|state| *state == states[first])
        && seen.before[from..] == seen.after[from..];
    (!holds).then(|| "behind the first end a state or a word changes".to_string())
}
