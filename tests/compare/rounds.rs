//! Rounds: every group in turn makes its checks, from a seed that the run, the round and the group's place give.

use crate::groups::Group;
use crate::shrink::shrunk;
use crate::trial::Trial;
use second::call::Call;
use second::random::Random;
use std::time::Duration;

/// A check that found something wrong: which one it was, and its call.
#[derive(Clone)]
pub struct Found {
    pub group: usize,
    pub round: u64,
    /// How many checks of the same round came before it.
    pub before: u64,
    pub call: Call,
}

/// How many checks a round makes.
pub fn checks_in_a_round(groups: &[Group]) -> u64 {
    groups.iter().map(|group| group.checks as u64).sum()
}

/// How many rounds make so many checks or a few more.
pub fn how_many(groups: &[Group], checks: u64) -> u64 {
    checks.div_ceil(checks_in_a_round(groups)).max(1)
}

/// Makes one group's checks of a round, and stops at the first that finds something wrong.
pub fn group_round(
    trial: Trial,
    groups: &[Group],
    place: usize,
    seed: u64,
    round: u64,
) -> Option<Found> {
    let group = &groups[place];
    let earlier: u64 = groups[..place]
        .iter()
        .map(|group| group.checks as u64)
        .sum();
    let mut random = Random::of([seed, round, place as u64]);
    for index in 0..group.checks as u64 {
        let call = group.call(&mut random);
        if group.trouble(trial, &call, &mut random).is_some() {
            return Some(Found {
                group: place,
                round,
                before: earlier + index,
                call,
            });
        }
    }
    None
}

/// What was found, shrunk within some time to the smallest call that still shows it, and what is wrong there.
pub fn smallest(trial: Trial, groups: &[Group], found: &Found, time: Duration) -> (Call, String) {
    let group = &groups[found.group];
    let trouble = |call: &Call| group.trouble(trial, call, &mut Random::of([1]));
    let call = shrunk(&found.call, time, |tried| trouble(tried).is_some());
    let what = trouble(&call)
        .unwrap_or_else(|| "  seen only with other memory around the call".to_string());
    (call, what)
}
