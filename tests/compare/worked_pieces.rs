//! Sheets in pieces worked by hand: those that are read as a whole, cut, and what comes at and behind the end.

use crate::cases::Case;
use second::call::{Answer, Call, Entry, Step};

/// A case of a sheet in pieces: what stands in its last state's answer, and the words that each end writes.
fn case(name: &'static str, text: &[u8], steps: &[Step], told: [u64; 4], words: &[&[u32]]) -> Case {
    let call = Call {
        text: text.to_vec(),
        steps: steps.to_vec(),
        ..Call::of(Entry::Pieces)
    };
    let due = Answer {
        numbers: [&[1], &told[..]].concat(),
        at_ends: words.iter().map(|words| words.to_vec()).collect(),
        ..Answer::default()
    };
    Case { name, call, due }
}

/// A case of reading with its text cut so, and then ended with the same room.
fn cut_so(whole: &Case, pieces: &[usize]) -> Case {
    let steps: Vec<Step> = pieces.iter().map(|&length| Step::Piece(length)).collect();
    let steps = [&steps[..], &[Step::End(whole.call.room)]].concat();
    let told = [0, 1, 2, 3].map(|place| whole.due.numbers[place]);
    let words: &[&[u32]] = &[&whole.due.words];
    case(whole.name, &whole.call.text, &steps, told, words)
}

/// A case of reading with its text cut in two: in the middle, and before and behind the place that it names.
fn in_two(whole: &Case) -> Vec<Case> {
    let length = whole.call.text.len();
    let place = whole.due.numbers[1] as usize;
    let cuts = [length / 2, place, place + 1];
    let cut = |place: usize| cut_so(whole, &[place, length]);
    cuts.into_iter().map(cut).collect()
}

/// A case of reading with its text in pieces of these lengths, over and over.
fn over_and_over(whole: &Case, lengths: &[usize]) -> Case {
    cut_so(whole, &lengths.repeat(whole.call.text.len()))
}

/// Every case of reading among some, in two pieces and byte by byte.
pub fn cut_cases(cases: &[Case]) -> Vec<Case> {
    let reading = cases
        .iter()
        .filter(|case| case.call.entry == Entry::ReadSheet);
    let cut = |whole: &Case| [in_two(whole), vec![over_and_over(whole, &[1])]].concat();
    reading.flat_map(cut).collect()
}

/// A case of reading cut in two at every place, and byte by byte with empty pieces between.
pub fn at_every_place(whole: &Case) -> Vec<Case> {
    let length = whole.call.text.len();
    let cut = |place: usize| cut_so(whole, &[place, length]);
    let with_empty = over_and_over(whole, &[0, 1]);
    (0..=length).map(cut).chain([with_empty]).collect()
}

/// The end of a sheet, by its text and its words: twice, with a piece between, with too little room first, too early, and not at all
/// before it is told.
pub fn end_cases(text: &[u8], words: &[u32]) -> Vec<Case> {
    use Step::{End, Piece};
    let rows = words.len() as u64 / 3;
    let (whole, room) = (Piece(text.len()), words.len());
    let read = [0, 0, 2, rows];
    let early = [1, text.len() as u64 - 1, 0, 0];
    let twice = [text, text].concat();
    let most = Piece(text.len() - 1);
    vec![
        case(
            "ended twice",
            text,
            &[whole, End(room), End(room)],
            read,
            &[words, &[]],
        ),
        case(
            "a piece behind the end",
            &twice,
            &[whole, End(room), whole, End(room)],
            read,
            &[words, &[]],
        ),
        case(
            "too little room and then enough",
            text,
            &[whole, End(room - 1), End(room)],
            [7, 0, 0, 0],
            &[&[], &[]],
        ),
        case(
            "ended before the last byte",
            text,
            &[most, End(room), Piece(1), End(room)],
            early,
            &[&[], &[]],
        ),
    ]
}

/// Texts of many bytes: a wrong one and then a thousand right ones, as many rows as line one can announce, and more bytes than that.
pub fn long_cases(text: &[u8], words: &[u32]) -> Vec<Case> {
    use Step::{End, Piece};
    let room = words.len();
    let wrong = [&b"0102G3\n"[..], &text[7..].repeat(16)].concat();
    let many = [&b"0102FF\n"[..], &text[7..].repeat(85)].concat();
    let more = [&many, &b"0".repeat(38)[..]].concat();
    let by_hundreds = [vec![Piece(100); 54], vec![End(room)]].concat();
    let by_pages = [Piece(4_096), Piece(4_096), End(room)];
    vec![
        case(
            "a wrong byte and a thousand right ones",
            &wrong,
            &[Piece(5), Piece(1_010), End(room)],
            [1, 4, 0, 0],
            &[&[]],
        ),
        case("255 rows", &many, &by_pages, [3, 0, 0, 0], &[&[]]),
        case(
            "5,400 bytes by hundreds",
            &more,
            &by_hundreds,
            [1, 5_362, 0, 0],
            &[&[]],
        ),
        case(
            "5,400 bytes by 4,096",
            &more,
            &by_pages,
            [1, 5_362, 0, 0],
            &[&[]],
        ),
    ]
}
