//! Calls on slices with nothing around them, for where only time or the answer is of interest.

use crate::exported::*;

/// The whole sheet refined by the at-once engine: the marks; the bounds are written to the words lent.
pub fn refine_at_once(words: &[u32], processors: u32, method: u32, bounds: &mut [u32]) -> u64 {
    // SAFETY: the pointers and lengths are those of slices.
    unsafe {
        circuitrail_refine_at_once(
            words.as_ptr(),
            words.len(),
            processors,
            method,
            bounds.as_mut_ptr(),
            bounds.len(),
        )
        .marks
    }
}

/// The whole sheet refined by the rounds engine: the marks; the bounds are written to the words lent.
pub fn refine_rounds(words: &[u32], processors: u32, method: u32, bounds: &mut [u32]) -> u64 {
    // SAFETY: the pointers and lengths are those of slices.
    unsafe {
        circuitrail_refine_rounds(
            words.as_ptr(),
            words.len(),
            processors,
            method,
            bounds.as_mut_ptr(),
            bounds.len(),
        )
        .marks
    }
}

/// The result sheet of rows: its length; the bytes are written to those lent.
pub fn write_result(words: &[u32], processors: u32, method: u32, out: &mut [u8]) -> u32 {
    // SAFETY: the pointers and lengths are those of slices.
    unsafe {
        circuitrail_write_result(
            words.as_ptr(),
            words.len(),
            processors,
            method,
            out.as_mut_ptr(),
            out.len(),
        )
        .last
    }
}

/// The exact test for one processor: its outcome and length.
pub fn one_processor(words: &[u32], horizon: u32) -> (u32, u32) {
    // SAFETY: the pointer and length are those of a slice.
    let seen = unsafe { circuitrail_one_processor(words.as_ptr(), words.len(), horizon) };
    (seen.third, seen.fourth)
}
