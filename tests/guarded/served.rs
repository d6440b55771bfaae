//! Makes each call that comes on standard input, and sends what it saw of it to standard output, until no more come.
//!
//! It begins by C's `main`: Rust's own looks up where the stack lies in the list of the process's memory, and the kit's emulator breaks off
//! at that.
#![no_main]

use guarded::{made, wire};
use std::fs::File;
use std::io::{stdin, stdout, Result};
use std::os::unix::io::AsFd;

/// Makes the calls.
fn serve() -> Result<()> {
    let mut asked = stdin().lock();
    let mut told = File::from(stdout().as_fd().try_clone_to_owned()?);
    while let Some((call, mut random)) = wire::receive_call(&mut asked)? {
        let seen = made(&call, &mut random);
        wire::send_seen(&mut told, &seen, &random)?;
    }
    Ok(())
}

/// Ends with status 0 where all calls were made.
#[no_mangle]
pub extern "C" fn main() -> i32 {
    serve().map_or(1, |()| 0)
}
