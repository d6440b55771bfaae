//! The second program by its parts.
//!
//! Every function reaches the parts below through this record, so that a wrong program is the right one with one part
//! exchanged.

use crate::call::{Answer, Call, Columns, Entry};
use crate::checks::Refusal;
use crate::density::{Density, Rounded};
use crate::one_processor::Verdict;
use crate::pieces::Came;
use crate::reader::Written;
use crate::rows::{Row, Sheet};
use crate::state::State;
use crate::{answers, checks, density, interference};
use crate::{one_processor, one_row, pieces, reader, refine, rows, writer};

/// A one-row answer by one method.
type Method = fn(&Program, &Sheet, usize, &[u64]) -> Option<u64>;

/// The parts, each named as the function that DOCUMENT has in its place.
#[derive(Clone, Copy)]
pub struct Program {
    pub taken: fn(&Call) -> Call,
    pub row_of: fn(&[u32]) -> Row,
    pub columns_wrong: fn([usize; 3]) -> bool,
    pub rows_in_lengths: fn([usize; 3]) -> usize,
    pub row_in_columns: fn(&Columns, usize) -> Row,
    pub is_other: fn(&[Row], usize, usize) -> bool,
    pub share: fn(Row, u64, u64) -> u64,
    pub work: fn(Row, u64, u64) -> u64,
    pub divided: fn(u64, u64) -> u64,
    pub bcl_cap: fn(Row) -> u64,
    pub rta_cap: fn(Row, u64) -> u64,
    pub rta_term: fn(u64, u64, u64) -> u64,
    pub bcl: Method,
    pub rta: Method,
    pub first_bounds: fn(&[Row]) -> Vec<u64>,
    pub refined: fn(&Program, &Sheet, u32) -> Vec<u64>,
    pub is_marked: fn(&Program, &Sheet, u32, usize, &[u64]) -> bool,
    pub marks: fn(&[bool]) -> u64,
    pub accepted: fn(&[bool]) -> bool,
    pub demand: fn(Row, u64) -> u64,
    pub misses: fn(u64, u64) -> bool,
    pub jobs_begun: fn(Row, u64) -> u64,
    pub fills: fn(u64, u64) -> bool,
    pub verdict: fn(&Program, &[Row], u64) -> Verdict,
    pub rounded: fn(Row) -> Rounded,
    pub weight: fn(&[Row], usize, usize, u128) -> u128,
    pub left_side: fn(&Program, &Sheet, &[u128], usize) -> u128,
    pub limit: fn(u128) -> u128,
    pub meets: fn(u128, u128) -> bool,
    pub breaks: fn(u128, u128) -> bool,
    pub density: fn(&Program, &Sheet) -> Density,
    pub density_number: fn(Density) -> u64,
    pub digit: fn(u8) -> Option<u32>,
    pub read: fn(&Program, &[u8]) -> Result<Written, usize>,
    pub announced: fn(u32) -> usize,
    pub with_digits: fn(u32, &[u32]) -> u32,
    pub fed: fn(&Program, &Came, &[u8]) -> Came,
    pub state_of: fn(&Program, &Came) -> State,
    pub ended: fn(&Program, &State, usize) -> (State, Vec<u32>),
    pub number_text: fn(u64, usize) -> String,
    pub refusal_line: fn(&Program, Refusal) -> String,
    pub applying: fn(Entry) -> &'static [u32],
    pub room_needed: fn(Entry, usize) -> usize,
    pub rank: fn(u32) -> u32,
    pub processors_wrong: fn(u32) -> bool,
    pub method_wrong: fn(u32) -> bool,
    pub horizon_wrong: fn(u32) -> bool,
    pub row_wrong: fn(Row) -> bool,
    pub bad_row: fn(&Program, &[Row]) -> Option<usize>,
    pub question_wrong: fn(&[Row], &[u32], u32) -> bool,
    pub refused: fn(Entry, Refusal) -> Answer,
}

/// The program that the scope document describes.
pub const DOCUMENT: Program = Program {
    taken: answers::taken,
    row_of: rows::row_of,
    columns_wrong: checks::columns_wrong,
    rows_in_lengths: checks::rows_in_lengths,
    row_in_columns: rows::row_in_columns,
    is_other: interference::is_other,
    share: interference::share,
    work: interference::work,
    divided: interference::divided,
    bcl_cap: one_row::bcl_cap,
    rta_cap: one_row::rta_cap,
    rta_term: one_row::rta_term,
    bcl: one_row::bcl,
    rta: one_row::rta,
    first_bounds: refine::first_bounds,
    refined: refine::refined,
    is_marked: refine::is_marked,
    marks: refine::marks,
    accepted: refine::accepted,
    demand: one_processor::demand,
    misses: one_processor::misses,
    jobs_begun: one_processor::jobs_begun,
    fills: one_processor::fills,
    verdict: one_processor::verdict,
    rounded: density::rounded,
    weight: density::weight,
    left_side: density::left_side,
    limit: density::limit,
    meets: density::meets,
    breaks: density::breaks,
    density: density::density,
    density_number: density::density_number,
    digit: reader::digit,
    read: reader::read,
    announced: pieces::announced,
    with_digits: pieces::with_digits,
    fed: pieces::fed,
    state_of: pieces::state_of,
    ended: pieces::ended,
    number_text: writer::number_text,
    refusal_line: writer::refusal_line,
    applying: checks::applying,
    room_needed: checks::room_needed,
    rank: checks::rank,
    processors_wrong: checks::processors_wrong,
    method_wrong: checks::method_wrong,
    horizon_wrong: checks::horizon_wrong,
    row_wrong: checks::row_wrong,
    bad_row: checks::bad_row,
    question_wrong: checks::question_wrong,
    refused: answers::refused,
};
