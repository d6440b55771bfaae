//! What is seen of calls.

use std::sync::atomic::AtomicU64;

/// How many calls have been made.
pub static CALLS: AtomicU64 = AtomicU64::new(0);

/// What a call of the proved program did: its numbers, the lent output before and after, and whether it touched what it must not.
#[derive(Clone, PartialEq, Eq, Debug)]
pub struct Seen {
    pub numbers: Vec<u64>,
    pub before: Vec<u64>,
    pub after: Vec<u64>,
    pub inputs_kept: bool,
    pub guards_kept: bool,
}
