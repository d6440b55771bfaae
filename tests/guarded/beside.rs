//! Calls that are made by another program, `served`, which stands beside this one and is run for each thread. Nothing can be told without
//! it: where it does not run, or breaks off, this program ends.

use crate::seen::{Seen, CALLS};
use crate::wire::{receive_seen, send_call};
use second::call::{Call, Entry};
use second::random::Random;
use std::cell::RefCell;
use std::io::{BufReader, Error, Result};
use std::process::{Child, ChildStdin, ChildStdout, Command, Stdio};
use std::sync::atomic::Ordering;

/// The other program, as it runs: what it is asked by, and what it answers by.
struct Served {
    program: Child,
    asked: Option<ChildStdin>,
    told: BufReader<ChildStdout>,
}

thread_local! {
    static SERVED: RefCell<Served> = RefCell::new(Served::started().unwrap_or_else(|why| end("is not there", why)));
}

/// Ends this program, from whatever thread, with what happened to the other one.
fn end(what: &str, why: Error) -> ! {
    eprintln!("the program 'served' beside this one {what}: {why}");
    std::process::exit(2)
}

impl Served {
    /// Starts the other program.
    fn started() -> Result<Served> {
        let mut program = Command::new(std::env::current_exe()?.with_file_name("served"))
            .stdin(Stdio::piped())
            .stdout(Stdio::piped())
            .spawn()?;
        Ok(Served {
            asked: program.stdin.take(),
            told: BufReader::new(program.stdout.take().unwrap()),
            program,
        })
    }

    /// Has a call made.
    fn made(&mut self, call: &Call, random: &mut Random) -> Result<Seen> {
        send_call(self.asked.as_mut().unwrap(), call, random)?;
        let (seen, behind) = receive_seen(&mut self.told)?;
        *random = behind;
        Ok(seen)
    }
}

impl Drop for Served {
    /// Tells the other program that there are no more calls, and waits for its end.
    fn drop(&mut self) {
        self.asked = None;
        let _ = self.program.wait();
    }
}

/// Has a call made, with guards and old output contents drawn from a random generator.
pub fn made(call: &Call, random: &mut Random) -> Seen {
    CALLS.fetch_add(1, Ordering::Relaxed);
    let made = |served: &RefCell<Served>| served.borrow_mut().made(call, random);
    SERVED
        .with(made)
        .unwrap_or_else(|why| end(&format!("broke off in {call:?}"), why))
}

/// The whole sheet refined by an engine: the marks; the bounds are written to the words lent.
fn refined(engine: Entry, words: &[u32], processors: u32, method: u32, bounds: &mut [u32]) -> u64 {
    let call = Call {
        words: words.to_vec(),
        processors,
        method,
        room: bounds.len(),
        ..Call::of(engine)
    };
    let seen = made(&call, &mut Random::of([0]));
    for (bound, word) in bounds.iter_mut().zip(&seen.after) {
        *bound = *word as u32;
    }
    seen.numbers[2]
}

/// The whole sheet refined by the at-once engine.
pub fn refine_at_once(words: &[u32], processors: u32, method: u32, bounds: &mut [u32]) -> u64 {
    refined(Entry::RefineAtOnce, words, processors, method, bounds)
}

/// The whole sheet refined by the rounds engine.
pub fn refine_rounds(words: &[u32], processors: u32, method: u32, bounds: &mut [u32]) -> u64 {
    refined(Entry::RefineRounds, words, processors, method, bounds)
}

/// The exact test for one processor: its outcome and length.
pub fn one_processor(words: &[u32], horizon: u32) -> (u32, u32) {
    let call = Call {
        words: words.to_vec(),
        horizon,
        ..Call::of(Entry::OneProcessor)
    };
    let seen = made(&call, &mut Random::of([0]));
    (seen.numbers[2] as u32, seen.numbers[3] as u32)
}
