//! The exported functions as `include/circuitrail.h` declares them.

use second::state::NUMBERS;

/// Three numbers returned.
#[repr(C)]
pub struct Three {
    pub refusal: u32,
    pub place: u32,
    pub last: u32,
}

/// Two numbers and the marks returned.
#[repr(C)]
pub struct Marks {
    pub refusal: u32,
    pub place: u32,
    pub marks: u64,
}

/// Four numbers returned.
#[repr(C)]
pub struct Four {
    pub refusal: u32,
    pub place: u32,
    pub third: u32,
    pub fourth: u32,
}

/// The state between the pieces of a sheet, by its numbers.
#[repr(C)]
#[derive(Clone, Copy)]
pub struct Pieces {
    pub numbers: [u32; NUMBERS],
}

#[link(name = "board", kind = "static")]
extern "C" {
    pub fn circuitrail_one_row(
        words: *const u32,
        words_length: usize,
        processors: u32,
        method: u32,
        bounds: *const u32,
        bounds_length: usize,
        row: u32,
    ) -> Three;
    pub fn circuitrail_refine_rounds(
        words: *const u32,
        words_length: usize,
        processors: u32,
        method: u32,
        bounds: *mut u32,
        bounds_length: usize,
    ) -> Marks;
    pub fn circuitrail_refine_at_once(
        words: *const u32,
        words_length: usize,
        processors: u32,
        method: u32,
        bounds: *mut u32,
        bounds_length: usize,
    ) -> Marks;
    pub fn circuitrail_one_processor(words: *const u32, words_length: usize, horizon: u32) -> Four;
    pub fn circuitrail_read_sheet(
        text: *const u8,
        text_length: usize,
        words: *mut u32,
        words_length: usize,
    ) -> Four;
    pub fn circuitrail_write_sheet(
        words: *const u32,
        words_length: usize,
        processors: u32,
        text: *mut u8,
        text_length: usize,
    ) -> Three;
    pub fn circuitrail_write_result(
        words: *const u32,
        words_length: usize,
        processors: u32,
        method: u32,
        text: *mut u8,
        text_length: usize,
    ) -> Three;
    pub fn circuitrail_answer_sheet(
        text: *const u8,
        text_length: usize,
        out: *mut u8,
        out_length: usize,
    ) -> Three;
    pub fn circuitrail_one_row_columns(
        costs: *const u32,
        costs_length: usize,
        deadlines: *const u32,
        deadlines_length: usize,
        periods: *const u32,
        periods_length: usize,
        processors: u32,
        method: u32,
        bounds: *const u32,
        bounds_length: usize,
        row: u32,
    ) -> Three;
    pub fn circuitrail_refine_rounds_columns(
        costs: *const u32,
        costs_length: usize,
        deadlines: *const u32,
        deadlines_length: usize,
        periods: *const u32,
        periods_length: usize,
        processors: u32,
        method: u32,
        bounds: *mut u32,
        bounds_length: usize,
    ) -> Marks;
    pub fn circuitrail_refine_at_once_columns(
        costs: *const u32,
        costs_length: usize,
        deadlines: *const u32,
        deadlines_length: usize,
        periods: *const u32,
        periods_length: usize,
        processors: u32,
        method: u32,
        bounds: *mut u32,
        bounds_length: usize,
    ) -> Marks;
    pub fn circuitrail_one_processor_columns(
        costs: *const u32,
        costs_length: usize,
        deadlines: *const u32,
        deadlines_length: usize,
        periods: *const u32,
        periods_length: usize,
        horizon: u32,
    ) -> Four;
    pub fn circuitrail_write_result_columns(
        costs: *const u32,
        costs_length: usize,
        deadlines: *const u32,
        deadlines_length: usize,
        periods: *const u32,
        periods_length: usize,
        processors: u32,
        method: u32,
        text: *mut u8,
        text_length: usize,
    ) -> Three;
    pub fn circuitrail_density(words: *const u32, words_length: usize, processors: u32) -> Three;
    pub fn circuitrail_density_columns(
        costs: *const u32,
        costs_length: usize,
        deadlines: *const u32,
        deadlines_length: usize,
        periods: *const u32,
        periods_length: usize,
        processors: u32,
    ) -> Three;
    pub fn circuitrail_pieces_start() -> Pieces;
    pub fn circuitrail_pieces_feed(state: Pieces, text: *const u8, text_length: usize) -> Pieces;
    pub fn circuitrail_pieces_end(state: Pieces, words: *mut u32, words_length: usize) -> Pieces;
}

impl From<Three> for Vec<u64> {
    fn from(seen: Three) -> Vec<u64> {
        vec![seen.refusal as u64, seen.place as u64, seen.last as u64]
    }
}

impl From<Marks> for Vec<u64> {
    fn from(seen: Marks) -> Vec<u64> {
        vec![seen.refusal as u64, seen.place as u64, seen.marks]
    }
}

impl From<Four> for Vec<u64> {
    fn from(seen: Four) -> Vec<u64> {
        vec![
            seen.refusal as u64,
            seen.place as u64,
            seen.third as u64,
            seen.fourth as u64,
        ]
    }
}
