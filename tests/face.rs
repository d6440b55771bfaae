//! Calls every function of the archive from Rust: with case S of docs/RULES.md, with inputs that are refused, with empty slices,
//! whose pointer dangles, and with null pointers. Compares every returned struct and the whole of the memory lent, and prints a line
//! for each that differs. It begins by C's `main`, as `tests/guarded/served.rs` does.
#![no_main]

use std::fmt::Debug;
use std::ptr::{null, null_mut};

#[repr(C)]
#[derive(Debug, PartialEq)]
struct Row {
    refusal: u32,
    place: u32,
    bound: u32,
}

#[repr(C)]
#[derive(Debug, PartialEq)]
struct Refined {
    refusal: u32,
    place: u32,
    marks: u64,
}

#[repr(C)]
#[derive(Debug, PartialEq)]
struct Outcome {
    refusal: u32,
    place: u32,
    outcome: u32,
    length: u32,
}

#[repr(C)]
#[derive(Debug, PartialEq)]
struct DensityAnswer {
    refusal: u32,
    place: u32,
    answer: u32,
}

#[repr(C)]
#[derive(Debug, PartialEq, Clone, Copy)]
struct Read {
    refusal: u32,
    place: u32,
    processors: u32,
    rows: u32,
}

#[repr(C)]
#[derive(Debug, PartialEq, Clone, Copy)]
struct Pieces {
    taken: u32,
    wrong: u32,
    processors: u32,
    rows: u32,
    words: [u32; 192],
    ended: u32,
    answer: Read,
}

#[repr(C)]
#[derive(Debug, PartialEq)]
struct Written {
    refusal: u32,
    place: u32,
    length: u32,
}

type Engine = unsafe extern "C" fn(*const u32, usize, u32, u32, *mut u32, usize) -> Refined;

type ColumnEngine =
    unsafe extern "C" fn(*const u32, usize, *const u32, usize, *const u32, usize, u32, u32, *mut u32, usize) -> Refined;

#[link(name = "board", kind = "static")]
extern "C" {
    fn circuitrail_one_row(
        words: *const u32, words_length: usize, processors: u32, method: u32, bounds: *const u32, bounds_length: usize, row: u32,
    ) -> Row;
    fn circuitrail_refine_rounds(
        words: *const u32, words_length: usize, processors: u32, method: u32, bounds: *mut u32, bounds_length: usize,
    ) -> Refined;
    fn circuitrail_refine_at_once(
        words: *const u32, words_length: usize, processors: u32, method: u32, bounds: *mut u32, bounds_length: usize,
    ) -> Refined;
    fn circuitrail_one_processor(words: *const u32, words_length: usize, horizon: u32) -> Outcome;
    fn circuitrail_read_sheet(bytes: *const u8, bytes_length: usize, words: *mut u32, words_length: usize) -> Read;
    fn circuitrail_pieces_start() -> Pieces;
    fn circuitrail_pieces_feed(state: Pieces, bytes: *const u8, bytes_length: usize) -> Pieces;
    fn circuitrail_pieces_end(state: Pieces, words: *mut u32, words_length: usize) -> Pieces;
    fn circuitrail_write_sheet(words: *const u32, words_length: usize, processors: u32, out: *mut u8, out_length: usize) -> Written;
    fn circuitrail_write_result(
        words: *const u32, words_length: usize, processors: u32, method: u32, out: *mut u8, out_length: usize,
    ) -> Written;
    fn circuitrail_answer_sheet(bytes: *const u8, bytes_length: usize, out: *mut u8, out_length: usize) -> Written;
    fn circuitrail_one_row_columns(
        costs: *const u32, costs_length: usize, deadlines: *const u32, deadlines_length: usize, periods: *const u32, periods_length: usize,
        processors: u32, method: u32, bounds: *const u32, bounds_length: usize, row: u32,
    ) -> Row;
    fn circuitrail_refine_rounds_columns(
        costs: *const u32, costs_length: usize, deadlines: *const u32, deadlines_length: usize, periods: *const u32, periods_length: usize,
        processors: u32, method: u32, bounds: *mut u32, bounds_length: usize,
    ) -> Refined;
    fn circuitrail_refine_at_once_columns(
        costs: *const u32, costs_length: usize, deadlines: *const u32, deadlines_length: usize, periods: *const u32, periods_length: usize,
        processors: u32, method: u32, bounds: *mut u32, bounds_length: usize,
    ) -> Refined;
    fn circuitrail_one_processor_columns(
        costs: *const u32, costs_length: usize, deadlines: *const u32, deadlines_length: usize, periods: *const u32, periods_length: usize,
        horizon: u32,
    ) -> Outcome;
    fn circuitrail_write_result_columns(
        costs: *const u32, costs_length: usize, deadlines: *const u32, deadlines_length: usize, periods: *const u32, periods_length: usize,
        processors: u32, method: u32, out: *mut u8, out_length: usize,
    ) -> Written;
    fn circuitrail_density(words: *const u32, words_length: usize, processors: u32) -> DensityAnswer;
    fn circuitrail_density_columns(
        costs: *const u32, costs_length: usize, deadlines: *const u32, deadlines_length: usize, periods: *const u32, periods_length: usize,
        processors: u32,
    ) -> DensityAnswer;
}

const BCL: u32 = 0;
const RTA: u32 = 1;

const UNSURE: u32 = 0;
const YES: u32 = 1;
const NO: u32 = 2;

// Case S: its words, its sheet, and its result sheet by RTA on two processors.
const S: [u32; 9] = [2, 5, 5, 2, 5, 5, 3, 6, 6];
const SHEET: &[u8] = b"010203\n02000002000005000005\n02000002000005000005\n02000003000006000006\n";
const RESULT: &[u8] = b"110103\n1201000004\n1201000004\n1201000005\n";

// S with no cost in row 1, and S with a letter that is no digit at offset 9.
const COSTLESS: [u32; 9] = [2, 5, 5, 0, 5, 5, 3, 6, 6];
const DAMAGED: &[u8] = b"010203\n02G00002000005000005\n02000002000005000005\n02000003000006000006\n";

// A sheet as an editor leaves it, its words, and how they are written.
const EDITED: &[u8] = b"010203\n0200000400000a00000A\n0200000400000A00000a\n0200000600000c00000C\n";
const DOUBLED: [u32; 9] = [4, 10, 10, 4, 10, 10, 6, 12, 12];
const UPPER: &[u8] = b"010203\n0200000400000A00000A\n0200000400000A00000A\n0200000600000C00000C\n";

// Costs, deadlines and periods.
type Columns<'a> = [&'a [u32]; 3];

// S in columns, the same with no cost in row 1, and rows that are due before their periods' end.
const S_COLUMNS: Columns = [&[2, 2, 3], &[5, 5, 6], &[5, 5, 6]];
const COSTLESS_COLUMNS: Columns = [&[2, 0, 3], &[5, 5, 6], &[5, 5, 6]];
const EARLY_COLUMNS: Columns = [&[1, 2], &[2, 3], &[4, 4]];

// Columns of lengths that are refused: their lengths in words, themselves, and the refusal's number.
fn refused_columns() -> Vec<(String, Columns<'static>, u32)> {
    const WORDS: &[u32] = &[1; 66];
    let [empty, one, two, three, long, longer] = [0, 1, 2, 3, 65, 66].map(|length| &WORDS[..length]);
    let unequal = [
        [empty, empty, empty], [empty, three, three], [three, empty, three], [three, three, empty],
        [three, empty, empty], [empty, three, empty], [empty, empty, three],
        [two, three, three], [three, two, three], [three, three, two], [three, two, two], [two, three, two], [two, two, three],
        [two, one, three], [longer, long, long], [long, longer, long], [long, long, longer],
    ];
    let many = [[long, long, long], [longer, longer, longer]];
    let all = unequal.iter().map(|columns| (columns, 2)).chain(many.iter().map(|columns| (columns, 3)));
    let lengths = |columns: &Columns| format!("columns of {}, {} and {} words", columns[0].len(), columns[1].len(), columns[2].len());
    all.map(|(columns, refusal)| (lengths(columns), *columns, refusal)).collect()
}

struct Tally {
    passed: u32,
    failed: u32,
}

impl Tally {
    fn same<T: Debug + PartialEq>(&mut self, what: &str, got: T, expected: T) {
        if got == expected {
            self.passed += 1;
        } else {
            self.failed += 1;
            println!("Rust: {what}: {got:?} and not {expected:?}");
        }
    }
}

fn one_row(tally: &mut Tally) {
    let ask = |words: &[u32], processors: u32, method: u32, bounds: &[u32], row: u32| unsafe {
        circuitrail_one_row(words.as_ptr(), words.len(), processors, method, bounds.as_ptr(), bounds.len(), row)
    };
    let is = |refusal, place, bound| Row { refusal, place, bound };
    let twins = [3, 4, 4, 3, 4, 4];
    tally.same("one row, S", ask(&S, 2, RTA, &[5, 5, 6], 2), is(0, 0, 6));
    tally.same("one row, S, second round", ask(&S, 2, RTA, &[4, 4, 6], 2), is(0, 0, 5));
    tally.same("one row, twins", ask(&twins, 2, RTA, &[4, 4], 0), is(0, 0, 3));
    tally.same("one row, twins by BCL", ask(&twins, 2, BCL, &[4, 4], 1), is(0, 0, 4));
    tally.same("one row, twins without answer", ask(&twins, 1, RTA, &[4, 4], 1), is(0, 0, 0));
    tally.same("one row, row without cost", ask(&COSTLESS, 2, RTA, &[5, 5, 6], 2), is(8, 1, 0));
    tally.same("one row, row 3", ask(&S, 2, RTA, &[5, 5, 6], 3), is(9, 0, 0));
    tally.same("one row, no words", ask(&[], 2, RTA, &[5, 5, 6], 2), is(2, 0, 0));
    tally.same("one row, no bounds", ask(&S, 2, RTA, &[], 2), is(9, 0, 0));
    let without_words = unsafe { circuitrail_one_row(null(), 0, 2, RTA, S.as_ptr(), 3, 2) };
    tally.same("one row, null words", without_words, is(2, 0, 0));
    let without_bounds = unsafe { circuitrail_one_row(S.as_ptr(), 9, 2, RTA, null(), 0, 2) };
    tally.same("one row, null bounds", without_bounds, is(9, 0, 0));
}

fn one_row_columns(tally: &mut Tally) {
    let ask = |[costs, deadlines, periods]: Columns, bounds: &[u32], row: u32| unsafe {
        circuitrail_one_row_columns(
            costs.as_ptr(), costs.len(), deadlines.as_ptr(), deadlines.len(), periods.as_ptr(), periods.len(),
            2, RTA, bounds.as_ptr(), bounds.len(), row,
        )
    };
    let is = |refusal, place, bound| Row { refusal, place, bound };
    tally.same("one row of columns, S", ask(S_COLUMNS, &[5, 5, 6], 2), is(0, 0, 6));
    tally.same("one row of columns, S, second round", ask(S_COLUMNS, &[4, 4, 6], 2), is(0, 0, 5));
    tally.same("one row of columns, rows due early", ask(EARLY_COLUMNS, &[2, 3], 1), is(0, 0, 2));
    tally.same("one row of columns, row without cost", ask(COSTLESS_COLUMNS, &[5, 5, 6], 2), is(8, 1, 0));
    tally.same("one row of columns, row 3", ask(S_COLUMNS, &[5, 5, 6], 3), is(9, 0, 0));
    tally.same("one row of columns, no bounds", ask(S_COLUMNS, &[], 2), is(9, 0, 0));
    for (lengths, columns, refusal) in refused_columns() {
        tally.same(&format!("one row, {lengths}"), ask(columns, &[5, 5, 6], 2), is(refusal, 0, 0));
    }
    let without_columns = unsafe { circuitrail_one_row_columns(null(), 0, null(), 0, null(), 0, 2, RTA, S.as_ptr(), 3, 2) };
    tally.same("one row of columns, null columns", without_columns, is(2, 0, 0));
}

fn refine(tally: &mut Tally, name: &str, engine: Engine) {
    let ask = |words: &[u32], bounds: &mut [u32]| unsafe {
        engine(words.as_ptr(), words.len(), 2, RTA, bounds.as_mut_ptr(), bounds.len())
    };
    let is = |refusal, place, marks| Refined { refusal, place, marks };
    let mut bounds = [9u32; 4];
    tally.same(&format!("{name}, too little room"), ask(&S, &mut bounds[..2]), is(7, 0, 0));
    tally.same(&format!("{name}, row without cost"), ask(&COSTLESS, &mut bounds), is(8, 1, 0));
    tally.same(&format!("{name}, no words"), ask(&[], &mut bounds), is(2, 0, 0));
    tally.same(&format!("{name}, null words"), unsafe { engine(null(), 0, 2, RTA, bounds.as_mut_ptr(), 4) }, is(2, 0, 0));
    tally.same(&format!("{name}, refused"), bounds, [9; 4]);
    tally.same(&format!("{name}, no room"), ask(&S, &mut []), is(7, 0, 0));
    tally.same(&format!("{name}, null room"), unsafe { engine(S.as_ptr(), 9, 2, RTA, null_mut(), 0) }, is(7, 0, 0));
    tally.same(&format!("{name}, S"), ask(&S, &mut bounds), is(0, 0, 7));
    tally.same(&format!("{name}, S, bounds"), bounds, [4, 4, 5, 9]);
}

fn refine_columns(tally: &mut Tally, name: &str, engine: ColumnEngine) {
    let ask = |[costs, deadlines, periods]: Columns, bounds: &mut [u32]| unsafe {
        engine(
            costs.as_ptr(), costs.len(), deadlines.as_ptr(), deadlines.len(), periods.as_ptr(), periods.len(),
            2, RTA, bounds.as_mut_ptr(), bounds.len(),
        )
    };
    let is = |refusal, place, marks| Refined { refusal, place, marks };
    let mut bounds = [9u32; 4];
    tally.same(&format!("{name}, too little room"), ask(S_COLUMNS, &mut bounds[..2]), is(7, 0, 0));
    tally.same(&format!("{name}, row without cost"), ask(COSTLESS_COLUMNS, &mut bounds), is(8, 1, 0));
    for (lengths, columns, refusal) in refused_columns() {
        tally.same(&format!("{name}, {lengths}"), ask(columns, &mut bounds), is(refusal, 0, 0));
    }
    let without_columns = unsafe { engine(null(), 0, null(), 0, null(), 0, 2, RTA, bounds.as_mut_ptr(), 4) };
    tally.same(&format!("{name}, null columns"), without_columns, is(2, 0, 0));
    tally.same(&format!("{name}, refused"), bounds, [9; 4]);
    tally.same(&format!("{name}, no room"), ask(S_COLUMNS, &mut []), is(7, 0, 0));
    tally.same(&format!("{name}, S"), ask(S_COLUMNS, &mut bounds), is(0, 0, 7));
    tally.same(&format!("{name}, S, bounds"), bounds, [4, 4, 5, 9]);
    tally.same(&format!("{name}, rows due early"), ask(EARLY_COLUMNS, &mut bounds), is(0, 0, 3));
    tally.same(&format!("{name}, rows due early, bounds"), bounds, [1, 2, 5, 9]);
}

// With 64 rows, each of which is marked, every bit of the marks is set.
fn refine_most_rows(tally: &mut Tally, name: &str, engine: Engine) {
    let words = [1, 1_000_000, 1_000_000].repeat(64);
    let mut bounds = [0u32; 64];
    let got = unsafe { engine(words.as_ptr(), words.len(), 64, RTA, bounds.as_mut_ptr(), bounds.len()) };
    tally.same(&format!("{name}, 64 rows"), got, Refined { refusal: 0, place: 0, marks: u64::MAX });
    tally.same(&format!("{name}, 64 rows, bounds"), bounds, [1; 64]);
}

fn refine_most_columns(tally: &mut Tally, name: &str, engine: ColumnEngine) {
    let (costs, deadlines) = ([1u32; 64], [1_000_000u32; 64]);
    let mut bounds = [0u32; 64];
    let (cost, deadline) = (costs.as_ptr(), deadlines.as_ptr());
    let got = unsafe { engine(cost, 64, deadline, 64, deadline, 64, 64, RTA, bounds.as_mut_ptr(), bounds.len()) };
    tally.same(&format!("{name}, 64 rows"), got, Refined { refusal: 0, place: 0, marks: u64::MAX });
    tally.same(&format!("{name}, 64 rows, bounds"), bounds, [1; 64]);
}

fn one_processor(tally: &mut Tally) {
    let ask = |words: &[u32], horizon: u32| unsafe { circuitrail_one_processor(words.as_ptr(), words.len(), horizon) };
    let is = |refusal, place, outcome, length| Outcome { refusal, place, outcome, length };
    tally.same("one processor, S", ask(&S, 16_777_216), is(0, 0, 1, 6));
    tally.same("one processor, S up to 5", ask(&S, 5), is(0, 0, 0, 0));
    tally.same("one processor, rows that fit", ask(&[1, 2, 4, 2, 3, 4], 3), is(0, 0, 2, 3));
    tally.same("one processor, horizon 0", ask(&S, 0), is(6, 0, 0, 0));
    tally.same("one processor, row without cost", ask(&COSTLESS, 5), is(8, 1, 0, 0));
    tally.same("one processor, no words", ask(&[], 5), is(2, 0, 0, 0));
    tally.same("one processor, null words", unsafe { circuitrail_one_processor(null(), 0, 5) }, is(2, 0, 0, 0));
}

fn one_processor_columns(tally: &mut Tally) {
    let ask = |[costs, deadlines, periods]: Columns, horizon: u32| unsafe {
        circuitrail_one_processor_columns(
            costs.as_ptr(), costs.len(), deadlines.as_ptr(), deadlines.len(), periods.as_ptr(), periods.len(), horizon,
        )
    };
    let is = |refusal, place, outcome, length| Outcome { refusal, place, outcome, length };
    tally.same("one processor of columns, S", ask(S_COLUMNS, 16_777_216), is(0, 0, 1, 6));
    tally.same("one processor of columns, S up to 5", ask(S_COLUMNS, 5), is(0, 0, 0, 0));
    tally.same("one processor of columns, rows due early", ask(EARLY_COLUMNS, 3), is(0, 0, 2, 3));
    tally.same("one processor of columns, horizon 0", ask(S_COLUMNS, 0), is(6, 0, 0, 0));
    tally.same("one processor of columns, row without cost", ask(COSTLESS_COLUMNS, 5), is(8, 1, 0, 0));
    for (lengths, columns, refusal) in refused_columns() {
        tally.same(&format!("one processor, {lengths}"), ask(columns, 5), is(refusal, 0, 0, 0));
    }
    let without_columns = unsafe { circuitrail_one_processor_columns(null(), 0, null(), 0, null(), 0, 5) };
    tally.same("one processor of columns, null columns", without_columns, is(2, 0, 0, 0));
}

fn density(tally: &mut Tally) {
    let ask = |words: &[u32], processors: u32| unsafe { circuitrail_density(words.as_ptr(), words.len(), processors) };
    let is = |refusal, place, answer| DensityAnswer { refusal, place, answer };
    tally.same("density, S", ask(&S, 2), is(0, 0, YES));
    tally.same("density, S on one processor", ask(&S, 1), is(0, 0, NO));
    tally.same("density, three thirds", ask(&[1, 3, 3].repeat(3), 1), is(0, 0, UNSURE));
    tally.same("density, rows due early", ask(&[1, 2, 4, 2, 3, 4], 1), is(0, 0, NO));
    tally.same("density, a full row on 64 processors", ask(&[1; 3], 64), is(0, 0, YES));
    tally.same("density, 64 rows", ask(&[1_000_000; 192], 64), is(0, 0, NO));
    tally.same("density, no processor", ask(&S, 0), is(4, 0, 0));
    tally.same("density, 65 processors", ask(&S, 65), is(4, 0, 0));
    tally.same("density, row without cost", ask(&COSTLESS, 2), is(8, 1, 0));
    tally.same("density, no whole rows", ask(&S[..8], 2), is(2, 0, 0));
    tally.same("density, no words", ask(&[], 2), is(2, 0, 0));
    tally.same("density, null words", unsafe { circuitrail_density(null(), 0, 2) }, is(2, 0, 0));
}

fn density_columns(tally: &mut Tally) {
    let ask = |[costs, deadlines, periods]: Columns, processors: u32| unsafe {
        circuitrail_density_columns(
            costs.as_ptr(), costs.len(), deadlines.as_ptr(), deadlines.len(), periods.as_ptr(), periods.len(), processors,
        )
    };
    let is = |refusal, place, answer| DensityAnswer { refusal, place, answer };
    tally.same("density of columns, S", ask(S_COLUMNS, 2), is(0, 0, YES));
    tally.same("density of columns, S on one processor", ask(S_COLUMNS, 1), is(0, 0, NO));
    tally.same("density of columns, three thirds", ask([&[1; 3], &[3; 3], &[3; 3]], 1), is(0, 0, UNSURE));
    tally.same("density of columns, rows due early", ask(EARLY_COLUMNS, 1), is(0, 0, NO));
    tally.same("density of columns, a full row on 64 processors", ask([&[1]; 3], 64), is(0, 0, YES));
    tally.same("density of columns, 64 rows", ask([&[1_000_000; 64]; 3], 64), is(0, 0, NO));
    tally.same("density of columns, no processor", ask(S_COLUMNS, 0), is(4, 0, 0));
    tally.same("density of columns, 65 processors", ask(S_COLUMNS, 65), is(4, 0, 0));
    tally.same("density of columns, row without cost", ask(COSTLESS_COLUMNS, 2), is(8, 1, 0));
    for (lengths, columns, refusal) in refused_columns() {
        tally.same(&format!("density, {lengths}"), ask(columns, 2), is(refusal, 0, 0));
    }
    let without_columns = unsafe { circuitrail_density_columns(null(), 0, null(), 0, null(), 0, 2) };
    tally.same("density of columns, null columns", without_columns, is(2, 0, 0));
}

fn read_sheet(tally: &mut Tally) {
    let ask = |bytes: &[u8], words: &mut [u32]| unsafe {
        circuitrail_read_sheet(bytes.as_ptr(), bytes.len(), words.as_mut_ptr(), words.len())
    };
    let is = |refusal, place, processors, rows| Read { refusal, place, processors, rows };
    let mut words = [9u32; 10];
    tally.same("read sheet, too little room", ask(SHEET, &mut words[..8]), is(7, 0, 0, 0));
    tally.same("read sheet, damaged", ask(DAMAGED, &mut words), is(1, 9, 0, 0));
    tally.same("read sheet, no bytes", ask(&[], &mut words), is(1, 0, 0, 0));
    tally.same("read sheet, null bytes", unsafe { circuitrail_read_sheet(null(), 0, words.as_mut_ptr(), 10) }, is(1, 0, 0, 0));
    tally.same("read sheet, refused", words, [9; 10]);
    tally.same("read sheet, no room", ask(SHEET, &mut []), is(7, 0, 0, 0));
    let without_room = unsafe { circuitrail_read_sheet(SHEET.as_ptr(), SHEET.len(), null_mut(), 0) };
    tally.same("read sheet, null room", without_room, is(7, 0, 0, 0));
    tally.same("read sheet, S", ask(SHEET, &mut words), is(0, 0, 2, 3));
    tally.same("read sheet, S, words", words, [2, 5, 5, 2, 5, 5, 3, 6, 6, 9]);
    tally.same("read sheet, in both cases", ask(EDITED, &mut words), is(0, 0, 2, 3));
    tally.same("read sheet, in both cases, words", &words[..9], &DOUBLED[..]);
}

// A piece, and the end, as slices lend them.
fn feed(state: Pieces, bytes: &[u8]) -> Pieces {
    unsafe { circuitrail_pieces_feed(state, bytes.as_ptr(), bytes.len()) }
}

fn end(state: Pieces, words: &mut [u32]) -> Pieces {
    unsafe { circuitrail_pieces_end(state, words.as_mut_ptr(), words.len()) }
}

// The state behind some right bytes of S, before it has ended.
fn state_of(taken: u32, wrong: u32, processors: u32, rows: u32, come: &[u32]) -> Pieces {
    let mut words = [0; 192];
    words[..come.len()].copy_from_slice(come);
    let answer = Read { refusal: 0, place: 0, processors: 0, rows: 0 };
    Pieces { taken, wrong, processors, rows, words, ended: 0, answer }
}

// S in two pieces, cut at every place: the states, the answer, and the words.
fn pieces(tally: &mut Tally) {
    let answer = Read { refusal: 0, place: 0, processors: 2, rows: 3 };
    let (start, whole) = (unsafe { circuitrail_pieces_start() }, state_of(70, 0, 2, 3, &S));
    tally.same("pieces, start", start, state_of(0, 0, 0, 0, &[]));
    tally.same("pieces, 16 bytes", feed(start, &SHEET[..16]), state_of(16, 0, 2, 3, &[2]));
    for cut in 0..=SHEET.len() {
        let mut words = [9u32; 10];
        let both = feed(feed(start, &SHEET[..cut]), &SHEET[cut..]);
        let ended = Pieces { ended: 1, answer, ..whole };
        tally.same(&format!("pieces, S cut at {cut}"), both, whole);
        tally.same(&format!("pieces, S cut at {cut} and ended"), end(both, &mut words), ended);
        tally.same("pieces, words of S", words, [2, 5, 5, 2, 5, 5, 3, 6, 6, 9]);
        words = [9; 10];
        tally.same("pieces, a piece behind the end", feed(ended, &SHEET[..cut]), ended);
        tally.same("pieces, ended twice", end(ended, &mut words[..9]), ended);
        tally.same("pieces, words of a second end", words, [9; 10]);
    }
}

// Ends that are refused, and stay so with more room and with more bytes.
fn pieces_refused(tally: &mut Tally) {
    let is = |state: Pieces, refusal, place| Pieces { ended: 1, answer: Read { refusal, place, processors: 0, rows: 0 }, ..state };
    let (start, whole) = (unsafe { circuitrail_pieces_start() }, state_of(70, 0, 2, 3, &S));
    let wrong = state_of(9, 1, 2, 3, &[]);
    let mut words = [9u32; 10];
    tally.same("pieces, damaged", feed(start, DAMAGED), wrong);
    tally.same("pieces, damaged, byte by byte", DAMAGED.chunks(1).fold(start, feed), wrong);
    tally.same("pieces, damaged, and more", feed(wrong, &[b'0'; 1000]), wrong);
    tally.same("pieces, damaged, ended", end(wrong, &mut words), is(wrong, 1, 9));
    tally.same("pieces, too little room", end(whole, &mut words[..8]), is(whole, 7, 0));
    tally.same("pieces, and then enough", end(is(whole, 7, 0), &mut words), is(whole, 7, 0));
    tally.same("pieces, no bytes", end(feed(start, &[]), &mut words), is(start, 1, 0));
    tally.same("pieces, null bytes", unsafe { circuitrail_pieces_feed(start, null(), 0) }, start);
    tally.same("pieces, refused", words, [9; 10]);
    tally.same("pieces, no room", end(whole, &mut []), is(whole, 7, 0));
    tally.same("pieces, null room", unsafe { circuitrail_pieces_end(whole, null_mut(), 0) }, is(whole, 7, 0));
}

// Lent bytes are dots before anything is written to them: the text stands at the front, and dots behind it.
const ROOM: usize = 80;

fn holding(text: &[u8]) -> [u8; ROOM] {
    let mut bytes = [b'.'; ROOM];
    bytes[..text.len()].copy_from_slice(text);
    bytes
}

fn write_sheet(tally: &mut Tally) {
    let ask = |words: &[u32], out: &mut [u8]| unsafe {
        circuitrail_write_sheet(words.as_ptr(), words.len(), 2, out.as_mut_ptr(), out.len())
    };
    let is = |refusal, place, length| Written { refusal, place, length };
    let mut out = holding(b"");
    tally.same("write sheet, too little room", ask(&S, &mut out[..69]), is(7, 0, 0));
    tally.same("write sheet, row without cost", ask(&COSTLESS, &mut out), is(8, 1, 0));
    tally.same("write sheet, no words", ask(&[], &mut out), is(2, 0, 0));
    tally.same("write sheet, null words", unsafe { circuitrail_write_sheet(null(), 0, 2, out.as_mut_ptr(), ROOM) }, is(2, 0, 0));
    tally.same("write sheet, refused", out, holding(b""));
    tally.same("write sheet, no room", ask(&S, &mut []), is(7, 0, 0));
    tally.same("write sheet, null room", unsafe { circuitrail_write_sheet(S.as_ptr(), 9, 2, null_mut(), 0) }, is(7, 0, 0));
    tally.same("write sheet, S", ask(&S, &mut out), is(0, 0, 70));
    tally.same("write sheet, S, bytes", out, holding(SHEET));
    tally.same("write sheet, upper case", ask(&DOUBLED, &mut out), is(0, 0, 70));
    tally.same("write sheet, upper case, bytes", out, holding(UPPER));
}

fn write_result(tally: &mut Tally) {
    let ask = |words: &[u32], method: u32, out: &mut [u8]| unsafe {
        circuitrail_write_result(words.as_ptr(), words.len(), 2, method, out.as_mut_ptr(), out.len())
    };
    let is = |refusal, place, length| Written { refusal, place, length };
    let mut out = holding(b"");
    tally.same("write result, too little room", ask(&S, RTA, &mut out[..39]), is(7, 0, 0));
    tally.same("write result, row without cost", ask(&COSTLESS, RTA, &mut out), is(8, 1, 0));
    tally.same("write result, method 2", ask(&S, 2, &mut out), is(5, 0, 0));
    tally.same("write result, no words", ask(&[], RTA, &mut out), is(2, 0, 0));
    tally.same("write result, null words", unsafe { circuitrail_write_result(null(), 0, 2, RTA, out.as_mut_ptr(), ROOM) }, is(2, 0, 0));
    tally.same("write result, refused", out, holding(b""));
    tally.same("write result, no room", ask(&S, RTA, &mut []), is(7, 0, 0));
    tally.same("write result, null room", unsafe { circuitrail_write_result(S.as_ptr(), 9, 2, RTA, null_mut(), 0) }, is(7, 0, 0));
    tally.same("write result, S", ask(&S, RTA, &mut out), is(0, 0, 40));
    tally.same("write result, S, bytes", out, holding(RESULT));
}

fn write_result_columns(tally: &mut Tally) {
    let ask = |[costs, deadlines, periods]: Columns, method: u32, out: &mut [u8]| unsafe {
        circuitrail_write_result_columns(
            costs.as_ptr(), costs.len(), deadlines.as_ptr(), deadlines.len(), periods.as_ptr(), periods.len(),
            2, method, out.as_mut_ptr(), out.len(),
        )
    };
    let is = |refusal, place, length| Written { refusal, place, length };
    let mut out = holding(b"");
    tally.same("write result of columns, too little room", ask(S_COLUMNS, RTA, &mut out[..39]), is(7, 0, 0));
    tally.same("write result of columns, row without cost", ask(COSTLESS_COLUMNS, RTA, &mut out), is(8, 1, 0));
    tally.same("write result of columns, method 2", ask(S_COLUMNS, 2, &mut out), is(5, 0, 0));
    for (lengths, columns, refusal) in refused_columns() {
        tally.same(&format!("write result, {lengths}"), ask(columns, RTA, &mut out), is(refusal, 0, 0));
    }
    let without_columns =
        unsafe { circuitrail_write_result_columns(null(), 0, null(), 0, null(), 0, 2, RTA, out.as_mut_ptr(), ROOM) };
    tally.same("write result of columns, null columns", without_columns, is(2, 0, 0));
    tally.same("write result of columns, refused", out, holding(b""));
    tally.same("write result of columns, no room", ask(S_COLUMNS, RTA, &mut []), is(7, 0, 0));
    tally.same("write result of columns, rows due early", ask(EARLY_COLUMNS, RTA, &mut out), is(0, 0, 29));
    tally.same("write result of columns, rows due early, bytes", out, holding(b"110102\n1201000001\n1201000002\n"));
    tally.same("write result of columns, S", ask(S_COLUMNS, RTA, &mut out), is(0, 0, 40));
    tally.same("write result of columns, S, bytes", out, holding(RESULT));
}

// A refused sheet has an answer too: the line that says why.
fn answer_sheet(tally: &mut Tally) {
    let ask = |bytes: &[u8], out: &mut [u8]| unsafe {
        circuitrail_answer_sheet(bytes.as_ptr(), bytes.len(), out.as_mut_ptr(), out.len())
    };
    let is = |refusal, place, length| Written { refusal, place, length };
    let mut out = holding(b"");
    tally.same("answer sheet, too little room", ask(SHEET, &mut out[..39]), is(7, 0, 0));
    tally.same("answer sheet, refused", out, holding(b""));
    tally.same("answer sheet, no room", ask(SHEET, &mut []), is(7, 0, 0));
    let without_room = unsafe { circuitrail_answer_sheet(SHEET.as_ptr(), SHEET.len(), null_mut(), 0) };
    tally.same("answer sheet, null room", without_room, is(7, 0, 0));
    tally.same("answer sheet, no bytes", ask(&[], &mut out), is(0, 0, 9));
    tally.same("answer sheet, no bytes, line", out, holding(b"1F010000\n"));
    tally.same("answer sheet, damaged", ask(DAMAGED, &mut out), is(0, 0, 9));
    tally.same("answer sheet, damaged, line", out, holding(b"1F010009\n"));
    tally.same("answer sheet, null bytes", unsafe { circuitrail_answer_sheet(null(), 0, out.as_mut_ptr(), ROOM) }, is(0, 0, 9));
    tally.same("answer sheet, null bytes, line", out, holding(b"1F010000\n"));
    tally.same("answer sheet, S", ask(SHEET, &mut out), is(0, 0, 40));
    tally.same("answer sheet, S, bytes", out, holding(RESULT));
}

#[no_mangle]
pub extern "C" fn main() -> i32 {
    let mut tally = Tally { passed: 0, failed: 0 };
    one_row(&mut tally);
    one_row_columns(&mut tally);
    for (name, engine) in [("rounds", circuitrail_refine_rounds as Engine), ("at once", circuitrail_refine_at_once)] {
        refine(&mut tally, name, engine);
        refine_most_rows(&mut tally, name, engine);
    }
    let engines: [(_, ColumnEngine); 2] = [
        ("columns in rounds", circuitrail_refine_rounds_columns),
        ("columns at once", circuitrail_refine_at_once_columns),
    ];
    for (name, engine) in engines {
        refine_columns(&mut tally, name, engine);
        refine_most_columns(&mut tally, name, engine);
    }
    one_processor(&mut tally);
    one_processor_columns(&mut tally);
    density(&mut tally);
    density_columns(&mut tally);
    read_sheet(&mut tally);
    pieces(&mut tally);
    pieces_refused(&mut tally);
    write_sheet(&mut tally);
    write_result(&mut tally);
    write_result_columns(&mut tally);
    answer_sheet(&mut tally);
    println!("{} passed, {} failed", tally.passed, tally.failed);
    i32::from(tally.failed > 0)
}
