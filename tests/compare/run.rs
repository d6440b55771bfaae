//! The comparison itself, on every processor of the machine, with a progress line.

use crate::groups::Group;
use crate::rounds::{checks_in_a_round, group_round, smallest, Found};
use crate::show::call_shown;
use crate::threads::threads;
use crate::trial::Trial;
use std::io::{stderr, IsTerminal, Write};
use std::sync::atomic::{AtomicU64, Ordering};
use std::sync::Mutex;
use std::time::{Duration, Instant};

/// How long a difference is shrunk.
const SHRINKING: Duration = Duration::from_secs(5);

/// The state that the threads share: the next round, how many are done, and the first thing found in each group.
struct Shared {
    next: AtomicU64,
    done: AtomicU64,
    rounds: u64,
    found: Mutex<Vec<Option<Found>>>,
}

/// Compares in so many rounds from a seed, tells what it found, and returns how many groups passed and failed.
pub fn compare(groups: &[Group], rounds: u64, seed: u64) -> (usize, usize) {
    let found = Mutex::new(vec![None; groups.len()]);
    let shared = Shared {
        next: AtomicU64::new(0),
        done: AtomicU64::new(0),
        rounds,
        found,
    };
    std::thread::scope(|scope| {
        for _ in 0..threads() {
            scope.spawn(|| work(groups, seed, &shared));
        }
        scope.spawn(|| progress(groups, &shared));
    });
    let found: Vec<Found> = shared
        .found
        .into_inner()
        .unwrap_or_default()
        .into_iter()
        .flatten()
        .collect();
    tell(groups, &found);
    (groups.len() - found.len(), found.len())
}

/// Takes rounds until none is left. A group that has found something is not asked again.
fn work(groups: &[Group], seed: u64, shared: &Shared) {
    loop {
        let round = shared.next.fetch_add(1, Ordering::Relaxed);
        if round >= shared.rounds {
            return;
        }
        for place in 0..groups.len() {
            let is_settled = shared.found.lock().is_ok_and(|all| all[place].is_some());
            if is_settled {
                continue;
            }
            if let Some(found) = group_round(Trial::Proved, groups, place, seed, round) {
                shared.found.lock().unwrap()[place].get_or_insert(found);
            }
        }
        shared.done.fetch_add(1, Ordering::Relaxed);
    }
}

/// Tells how far the comparison is: on one line of a terminal every half second, else a line every quarter of the way.
fn progress(groups: &[Group], shared: &Shared) {
    let started = Instant::now();
    let mut quarter = 0;
    loop {
        let done = shared.done.load(Ordering::Relaxed);
        let differing = shared
            .found
            .lock()
            .map_or(0, |all| all.iter().flatten().count());
        let line = format!(
            "compare: {} of {} checks, {differing} groups differ, {} s",
            done * checks_in_a_round(groups),
            shared.rounds * checks_in_a_round(groups),
            started.elapsed().as_secs()
        );
        if stderr().is_terminal() {
            eprint!("\r{line} ");
            let _ = stderr().flush();
        } else if done * 4 / shared.rounds > quarter {
            quarter = done * 4 / shared.rounds;
            println!("{line}");
        }
        if done == shared.rounds {
            break;
        }
        std::thread::sleep(Duration::from_millis(500));
    }
    if stderr().is_terminal() {
        eprintln!();
    }
}

/// Tells what was found: whole, by the smallest call that shows it, for the first group of each entry or relation.
fn tell(groups: &[Group], found: &[Found]) {
    let mut told = Vec::new();
    for found in found {
        let group = &groups[found.group];
        if told.contains(&group.subject()) {
            println!("DIFFERENCE in {} too", group.name());
            continue;
        }
        told.push(group.subject());
        let (call, what) = smallest(Trial::Proved, groups, found, SHRINKING);
        println!(
            "DIFFERENCE in {}\n  {}\n{what}",
            group.name(),
            call_shown(&call)
        );
    }
}
