//! Instructions, counted by valgrind's callgrind over one run of a case.

use std::process::Command;

/// The instructions of the case with a number by a side, in millions; none where valgrind is not there.
pub fn instructions(case: usize, side: &str) -> Option<f64> {
    let program = std::env::current_exe().ok()?;
    let counted = Command::new("valgrind")
        .args([
            "--tool=callgrind",
            "--callgrind-out-file=/dev/null",
            "--toggle-collect=measured",
        ])
        .arg(program)
        .args([case.to_string(), side.to_string()])
        .output()
        .ok()?;
    let said = String::from_utf8_lossy(&counted.stderr).into_owned();
    let line = said.lines().find(|line| line.contains("Collected"))?;
    let number = line.rsplit(' ').next()?.parse::<f64>().ok()?;
    Some(number / 1e6)
}
