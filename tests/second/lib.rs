//! The scope document written out a second time, from its text alone, as a plain and slow program.
//!
//! Wherever there is another way than the proved program's, it is taken here: a sheet is read by splitting its lines,
//! RTA tries one value after the other, refining takes the rows in a random order, the demand test looks at every length,
//! the density test divides as by hand and takes each row in turn for the largest, a sheet in pieces is kept whole and its state worked
//! out of all bytes afterwards, and the largest consistent set of a tiny sheet is found by trying every set.

pub mod answers;
pub mod call;
pub mod checks;
pub mod density;
pub mod interference;
pub mod largest;
pub mod one_processor;
pub mod one_row;
pub mod pieces;
pub mod program;
pub mod random;
pub mod reader;
pub mod refine;
pub mod rows;
pub mod state;
pub mod writer;
