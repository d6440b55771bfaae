//! Before anything is measured: all sides answer random sheets of every kind, and the run breaks off where they differ.

use crate::cases::Question;
use crate::sides::{answered, Side};
use second::random::Random;
use second::rows::words_of;
use sheets::{sheet, Kind};

/// How many sheets the sides answer.
const SHEETS: usize = 100_000;

/// The kinds that the plain method refines quickly, each as often as the others.
const KINDS: [Kind; 9] = [
    Kind::Tiny,
    Kind::Middle,
    Kind::Edges,
    Kind::Light,
    Kind::Heavy,
    Kind::Exponential,
    Kind::Climbing,
    Kind::Full,
    Kind::Slow,
];

/// The questions about a sheet: refined by either method, and on one processor up to a horizon.
fn questions(kind: Kind, random: &mut Random) -> Vec<Question> {
    let drawn = sheet(kind, random);
    let (words, processors) = (words_of(&drawn.rows), drawn.processors as u32);
    let refined = |method: u32| Question::AtOnce {
        words: words.clone(),
        processors,
        method,
    };
    let one_processor = Question::OneProcessor {
        words: words.clone(),
        horizon: random.within(1, 3_000) as u32,
    };
    vec![refined(0), refined(1), one_processor]
}

/// Breaks off where the sides answer a question otherwise.
fn hold_one(question: &Question) {
    let plain = answered(question, Side::Plain);
    assert_eq!(plain, answered(question, Side::Rust), "{question:?}");
    assert_eq!(plain, answered(question, Side::Proved), "{question:?}");
}

/// Holds the proved program, the same method and the plain method together.
pub fn hold_together() {
    let mut random = Random::of([SHEETS as u64]);
    for index in 0..SHEETS {
        let kind = KINDS[index % KINDS.len()];
        questions(kind, &mut random).iter().for_each(hold_one);
    }
}
