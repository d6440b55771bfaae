//! What the climber found: the slowest candidate of each entry.

use crate::candidate::{Candidate, ENTRIES};
use crate::limited::LIMIT;
use std::time::Duration;

/// Where the slowest candidates are written.
const PAGE: &str = "bench/speed/climbed.md";

/// The slowest candidate of each entry with its time, how many were looked at, and how many passed the limit.
pub struct Found {
    slowest: Vec<Option<(Candidate, Duration)>>,
    looked_at: usize,
    past_limit: usize,
}

/// A time in words; past the limit it is not known.
fn time_shown(time: Duration) -> String {
    let milliseconds = time.as_secs_f64() * 1e3;
    if time >= LIMIT {
        format!("more than {milliseconds:.0}")
    } else {
        format!("{milliseconds:.1}")
    }
}

impl Found {
    /// Nothing found yet.
    pub fn nothing() -> Found {
        Found {
            slowest: vec![None; ENTRIES.len()],
            looked_at: 0,
            past_limit: 0,
        }
    }

    /// Notes a candidate's time, none where it passed the limit, and returns it. One that passed is told at once.
    pub fn measured(&mut self, candidate: &Candidate, time: Option<Duration>) -> Duration {
        self.looked_at += 1;
        if time.is_none() {
            self.past_limit += 1;
            println!("climb: past the limit, {}", told(candidate, LIMIT));
        }
        let time = time.unwrap_or(LIMIT);
        let slowest = &mut self.slowest[candidate.entry];
        if slowest.as_ref().is_none_or(|(_, longest)| time > *longest) {
            *slowest = Some((candidate.clone(), time));
        }
        time
    }

    /// The slowest candidate of an entry; none where there is none yet or it passed the limit.
    pub fn slowest(&self, entry: usize) -> Option<Candidate> {
        let (candidate, time) = self.slowest[entry].as_ref()?;
        (*time < LIMIT).then(|| candidate.clone())
    }

    /// How far the climb is, in words.
    pub fn shown(&self) -> String {
        let one = |(candidate, time): &(Candidate, Duration)| {
            format!("{} {} ms", ENTRIES[candidate.entry].1, time_shown(*time))
        };
        let slowest: Vec<String> = self.slowest.iter().flatten().map(one).collect();
        format!("{} sheets, {}", self.looked_at, slowest.join(", "))
    }

    /// Tells the slowest candidate of each entry.
    pub fn tell(&self) {
        println!(
            "{} sheets looked at, {} of them past the limit",
            self.looked_at, self.past_limit
        );
        for (candidate, time) in self.slowest.iter().flatten() {
            println!("{}", told(candidate, *time));
        }
    }

    /// Writes the section of the bench's page.
    pub fn write(&self, time: Duration, seed: u64) {
        let line = |(candidate, time): &(Candidate, Duration)| {
            let name = ENTRIES[candidate.entry].1;
            let (asked, rows) = (candidate.asked_shown(), candidate.rows_shown());
            format!("| {name} | {} | {asked} | {rows} |\n", time_shown(*time))
        };
        let lines: String = self.slowest.iter().flatten().map(line).collect();
        let text = format!(
            "\n### The slowest sheets found\n\n`bench/climb` changes sheets, keeps what takes longer, and begins again from random sheets and from the families above. In {} seconds from seed {seed} it looked at {} sheets, of which {} took longer than {} seconds. The slowest of each entry, in milliseconds of processor time here:\n\n| entry | milliseconds | asked | rows |\n|---|---|---|---|\n{lines}",
            time.as_secs(),
            self.looked_at,
            self.past_limit,
            LIMIT.as_secs()
        );
        std::fs::write(PAGE, text).expect("a page that can be written");
        println!("written to {PAGE}");
    }
}

/// A candidate and its time, in words.
fn told(candidate: &Candidate, time: Duration) -> String {
    format!(
        "{}: {} ms, {}, rows {}",
        ENTRIES[candidate.entry].1,
        time_shown(time),
        candidate.asked_shown(),
        candidate.rows_shown()
    )
}
