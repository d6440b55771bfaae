//! Evaluation with a limit: in a child process, which is ended and started anew where a candidate takes too long.

use crate::candidate::Candidate;
use std::io::{BufRead, BufReader, Write};
use std::process::{Child, Command, Stdio};
use std::sync::mpsc::{channel, Receiver};
use std::time::Duration;

/// How long a candidate may take.
pub const LIMIT: Duration = Duration::from_secs(10);

/// The child that evaluates, and the lines it says.
pub struct Evaluator {
    child: Child,
    said: Receiver<String>,
}

impl Evaluator {
    /// Starts a child.
    pub fn started() -> Evaluator {
        let program = std::env::current_exe().expect("the climber's own path");
        let mut child = Command::new(program)
            .arg("--evaluate")
            .stdin(Stdio::piped())
            .stdout(Stdio::piped())
            .spawn()
            .expect("a child that evaluates");
        let output = child.stdout.take().expect("the child's output");
        let (sender, said) = channel();
        std::thread::spawn(move || {
            let lines = BufReader::new(output).lines().map_while(Result::ok);
            lines.map(|line| sender.send(line)).all(|sent| sent.is_ok())
        });
        Evaluator { child, said }
    }

    /// The processor time of a candidate; none where it takes longer than the limit, and then the child is a new one.
    pub fn time_of(&mut self, candidate: &Candidate) -> Option<Duration> {
        let input = self.child.stdin.as_mut().expect("the child's input");
        writeln!(input, "{}", candidate.line()).expect("a child that listens");
        match self.said.recv_timeout(LIMIT) {
            Ok(line) => Some(Duration::from_nanos(line.parse().expect("nanoseconds"))),
            Err(_) => {
                self.end();
                *self = Evaluator::started();
                None
            }
        }
    }

    /// Ends the child.
    pub fn end(&mut self) {
        let _ = self.child.kill();
        let _ = self.child.wait();
    }
}
