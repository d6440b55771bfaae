//! The C face of the proved program, as the comparison and the bench call it. The archive is x86-64 code: compiled for another machine,
//! this crate hands each call to a program for x86-64 that stands beside, `served.rs` on the same crate, and gets back what that saw.

#[cfg(not(target_arch = "x86_64"))]
mod beside;
#[cfg(target_arch = "x86_64")]
mod by_columns;
#[cfg(target_arch = "x86_64")]
mod exported;
#[cfg(target_arch = "x86_64")]
mod in_pieces;
#[cfg(target_arch = "x86_64")]
mod lent;
#[cfg(target_arch = "x86_64")]
mod made;
#[cfg(target_arch = "x86_64")]
mod plain;
mod seen;
#[cfg(target_arch = "x86_64")]
mod wide;
pub mod wire;

#[cfg(not(target_arch = "x86_64"))]
pub use beside::{made, one_processor, refine_at_once, refine_rounds};
#[cfg(target_arch = "x86_64")]
pub use made::made;
#[cfg(target_arch = "x86_64")]
pub use plain::{one_processor, refine_at_once, refine_rounds, write_result};
pub use seen::{Seen, CALLS};
