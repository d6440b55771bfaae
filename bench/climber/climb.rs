//! The climb: from a candidate to the slower one of its changes, and begun anew where no change helps for long.

use crate::candidate::{Candidate, ENTRIES};
use crate::change::changed;
use crate::found::Found;
use crate::limited::{Evaluator, LIMIT};
use crate::start::start;
use second::random::Random;
use std::time::{Duration, Instant};

/// After how many changes in a row that do not help a climb is begun anew.
const PATIENCE: usize = 200;

/// How often the climber tells how far it is.
const TELLING: Duration = Duration::from_secs(10);

/// How many turns there are in the whole time: a climb ends with its turn, so that every entry gets as much time.
const TURNS: u32 = 24;

/// What a climb is made with: the random numbers, the side that evaluates, what was found, and the time.
struct Climber {
    random: Random,
    evaluator: Evaluator,
    found: Found,
    started: Instant,
    told: Instant,
    time: Duration,
}

impl Climber {
    /// Whether the time is up; tells how far the climber is where that was not told for long.
    fn is_over(&mut self) -> bool {
        if self.told.elapsed() > TELLING {
            self.told = Instant::now();
            let (passed, time) = (self.started.elapsed().as_secs(), self.time.as_secs());
            println!("climb: {passed} of {time} s, {}", self.found.shown());
        }
        self.started.elapsed() > self.time
    }

    /// The time of a candidate, noted.
    fn time_of(&mut self, candidate: &Candidate) -> Duration {
        let time = self.evaluator.time_of(candidate);
        self.found.measured(candidate, time)
    }

    /// One climb of an entry, from a start or, every other time, from the slowest candidate found so far.
    fn climb_once(&mut self, entry: usize) {
        let begun = Instant::now();
        let again = self.found.slowest(entry);
        let again = again.filter(|_| self.random.once_in(2));
        let mut slowest = again.unwrap_or_else(|| start(entry, &mut self.random));
        let mut longest = self.time_of(&slowest);
        let mut tries = 0;
        let turn = self.time / TURNS;
        while tries < PATIENCE && longest < LIMIT && begun.elapsed() < turn && !self.is_over() {
            let next = changed(&slowest, &mut self.random);
            let time = self.time_of(&next);
            tries += 1;
            if time > longest {
                (slowest, longest, tries) = (next, time, 0);
            }
        }
    }
}

/// Climbs for some time; next is always the entry that had the least of it.
pub fn climb(time: Duration, seed: u64) -> Found {
    let mut climber = Climber {
        random: Random::of([seed]),
        evaluator: Evaluator::started(),
        found: Found::nothing(),
        started: Instant::now(),
        told: Instant::now(),
        time,
    };
    let mut had = [Duration::ZERO; ENTRIES.len()];
    while !climber.is_over() {
        let next = (0..had.len()).min_by_key(|&entry| had[entry]).unwrap_or(0);
        let begun = Instant::now();
        climber.climb_once(next);
        had[next] += begun.elapsed();
    }
    climber.evaluator.end();
    climber.found
}
