//! The comparison tested: every wrong second program must be caught by the checks that it is there for, within the gate's number
//! of them, and every case worked by hand must tell a wrong program from the right one.

use crate::groups::Group;
use crate::near;
use crate::rounds::{checks_in_a_round, group_round, how_many, smallest, Found};
use crate::show::call_shown;
use crate::threads::of_each;
use crate::trial::Trial;
use crate::unequal;
use crate::worked;
use crate::wrong::{wrong_programs, By, Wrong};
use std::cmp::Reverse;
use std::time::Duration;

/// How long a call that catches a wrong program is shrunk.
const SHRINKING: Duration = Duration::from_millis(80);

/// All groups of the comparison, in how many rounds, and from which seed.
struct Run<'a> {
    groups: &'a [Group],
    rounds: u64,
    seed: u64,
}

impl Run<'_> {
    /// A check that catches a wrong program, if one does, among the groups that are meant; in each round those of quick calls, of
    /// which there are many, come first.
    fn caught(&self, trial: Trial, is_meant: impl Fn(&Group) -> bool) -> Option<Found> {
        let mut places: Vec<usize> = (0..self.groups.len())
            .filter(|&place| is_meant(&self.groups[place]))
            .collect();
        places.sort_by_key(|&place| Reverse(self.groups[place].checks));
        let in_round = |round: u64| {
            let caught = |&place: &usize| group_round(trial, self.groups, place, self.seed, round);
            places.iter().find_map(caught)
        };
        (0..self.rounds).find_map(in_round)
    }

    /// The check that catches a wrong program in words: which it is, and its smallest call.
    fn caught_told(&self, wrong: &Wrong, is_meant: impl Fn(&Group) -> bool) -> Option<String> {
        let trial = Trial::Wrong(&wrong.program);
        let found = self.caught(trial, is_meant)?;
        let number = found.round * checks_in_a_round(self.groups) + found.before + 1;
        let (call, _) = smallest(trial, self.groups, &found, SHRINKING);
        let group = self.groups[found.group].name();
        Some(format!("check {number}, {group}\n  {}", call_shown(&call)))
    }

    /// How a wrong program is caught by the checks that it is there for, in words, if it is.
    fn how_caught(&self, wrong: &Wrong) -> Option<String> {
        match &wrong.by {
            By::Answers(entries) => self.caught_told(wrong, |group| group.holds_answers(entries)),
            By::Relation(name) => self.caught_told(wrong, |group| group.is_by(name)),
            By::NearTexts(entry) => near::first_difference(&wrong.program, *entry),
            By::Lengths(entry) => unequal::first_difference(&wrong.program, *entry),
            By::Case(case) => case.second_wrong(&wrong.program),
        }
    }

    /// Whether a wrong program is caught, and how, in words.
    fn told(&self, wrong: &Wrong) -> (bool, String) {
        match self.how_caught(wrong) {
            None => (false, format!("NOT CAUGHT: a program that {}", wrong.slip)),
            Some(how) => (
                true,
                format!("a program that {} is caught: {how}", wrong.slip),
            ),
        }
    }
}

/// Whether each case worked by hand tells some wrong program from the right one, and how many, in words.
fn worked_told(programs: &[Wrong]) -> Vec<(bool, String)> {
    of_each(&worked::cases(), |case| {
        let told_apart = |wrong: &&Wrong| case.second_wrong(&wrong.program).is_some();
        let count = programs.iter().filter(told_apart).count();
        let line = format!("{} tells {count} wrong programs", case.title());
        (count > 0, line)
    })
}

/// Tries every wrong program, tells by which check it is caught and by which smallest call, and returns how many were and were not;
/// cases worked by hand count among them.
pub fn catch_all(groups: &[Group], cases: u64, seed: u64) -> (usize, usize) {
    let run = Run {
        groups,
        rounds: how_many(groups, cases),
        seed,
    };
    let programs = wrong_programs();
    let told = of_each(&programs, |wrong| run.told(wrong));
    let told = [told, worked_told(&programs)].concat();
    told.iter().for_each(|(_, line)| println!("{line}"));
    let passed = told.iter().filter(|(is_caught, _)| *is_caught).count();
    (passed, told.len() - passed)
}
