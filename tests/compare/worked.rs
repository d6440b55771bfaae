//! The documents' numbers worked by hand, of the proved program and of the second one.

use crate::cases::{call, density, one_processor, one_row, refined, written, Case};
use crate::worked_pieces::{at_every_place, cut_cases, end_cases, long_cases};
use second::call::{Answer, Call, Entry};
use second::program::DOCUMENT;
use second::random::Random;

/// The rows of case S.
const S: [u32; 9] = [2, 5, 5, 2, 5, 5, 3, 6, 6];

/// Two rows that are twins.
const TWINS: [u32; 6] = [3, 4, 4, 3, 4, 4];

/// Rows of utilisation exactly 1.
const WHOLE: [u32; 9] = [15, 70, 75, 334, 668, 668, 54, 178, 180];

/// Questions about one row: P4 to P7.
fn row_cases() -> Vec<Case> {
    vec![
        one_row("P4", &S, 2, 1, &[5, 5, 6], 2, 6),
        one_row("P5", &S, 2, 1, &[4, 4, 6], 2, 5),
        one_row("P6 by RTA", &TWINS, 1, 1, &[4, 4], 0, 0),
        one_row("P6 by BCL", &TWINS, 1, 0, &[4, 4], 1, 0),
        one_row("P7 by RTA", &TWINS, 2, 1, &[4, 4], 0, 3),
        one_row("P7 by BCL", &TWINS, 2, 0, &[4, 4], 1, 4),
    ]
}

/// Questions about one processor: P8 to P10 and those that are run.
fn processor_cases() -> Vec<Case> {
    vec![
        one_processor("P8", &TWINS, 4, 1, 4),
        one_processor("P9", &[1, 2, 4, 2, 3, 4], 3, 2, 3),
        one_processor("P10 at horizon 2", &[2, 2, 4, 2, 3, 4], 2, 0, 0),
        one_processor("P10 at horizon 3", &[2, 2, 4, 2, 3, 4], 3, 1, 3),
        one_processor("(5,5,10) at horizon 4", &[5, 5, 10], 4, 0, 0),
        one_processor("(5,5,10) at horizon 5", &[5, 5, 10], 5, 2, 5),
        one_processor("utilisation 1 at horizon 150,299", &WHOLE, 150_299, 0, 0),
        one_processor(
            "utilisation 1 at horizon 150,300",
            &WHOLE,
            150_300,
            2,
            150_300,
        ),
    ]
}

/// The hoist of README and of `examples`.
const HOIST: [u32; 24] = [
    400, 1000, 1000, 400, 1000, 1000, 500, 1000, 2000, 900, 2000, 5000, 1200, 4000, 10000, 300,
    1000, 2000, 8000, 40000, 40000, 15000, 50000, 100000,
];

/// The density test: the document's numbers, equality on one processor and on 64, and the two sheets that README names, on which
/// RTA says otherwise.
fn density_cases() -> Vec<Case> {
    let full = [1, 1, 1];
    vec![
        density("densities of the hoist", &HOIST, 4, 2),
        density(
            "densities that RTA does not accept",
            &[2, 4, 4, 3, 6, 6],
            1,
            1,
        ),
        density("densities of S", &S, 2, 1),
        density("three thirds", &[1, 3, 3].repeat(3), 1, 0),
        density("two halves", &[1, 2, 2].repeat(2), 1, 1),
        density("a full row", &full, 1, 1),
        density("a full row on 64 processors", &full, 64, 1),
        density("64 full rows on 64 processors", &full.repeat(64), 64, 2),
    ]
}

/// Whole sheets: case S, and sheets that tell wrong tools apart which pass it.
fn sheet_cases() -> Vec<Case> {
    let mut cases = Vec::new();
    for entry in [Entry::RefineRounds, Entry::RefineAtOnce] {
        cases.push(refined("case S", entry, &S, 2, 7, &[4, 4, 5]));
        cases.push(refined(
            "RTA without W",
            entry,
            &[1, 1, 2, 1, 3, 3],
            1,
            3,
            &[1, 2],
        ));
        cases.push(refined(
            "a stop when all are marked",
            entry,
            &[1, 2, 2, 1, 5, 5],
            1,
            3,
            &[1, 2],
        ));
        cases.push(refined(
            "a start at the costs",
            entry,
            &[1, 2, 2, 1, 4, 4],
            1,
            3,
            &[2, 3],
        ));
    }
    cases
}

/// Texts: case S read, written and answered, and a refusal told.
fn text_cases() -> Vec<Case> {
    let sheet =
        b"010203\n02000002000005000005\n02000002000005000005\n02000003000006000006\n".to_vec();
    let result = b"110103\n1201000004\n1201000004\n1201000005\n".to_vec();
    let read = Call {
        text: sheet.clone(),
        ..call(Entry::ReadSheet, &S, 2)
    };
    let whole = Call {
        text: sheet.clone(),
        ..call(Entry::AnswerSheet, &S, 2)
    };
    let cut = Call {
        text: sheet[..69].to_vec(),
        ..whole.clone()
    };
    let read_answer = Answer {
        numbers: vec![0, 0, 2, 3],
        words: S.to_vec(),
        ..Answer::default()
    };
    vec![
        Case {
            name: "case S read",
            call: read,
            due: read_answer,
        },
        written("case S written", call(Entry::WriteSheet, &S, 2), &sheet),
        written(
            "case S as a result sheet",
            call(Entry::WriteResult, &S, 2),
            &result,
        ),
        written("case S answered", whole, &result),
        written("case S cut short", cut, b"1F010045\n"),
    ]
}

/// S with every number doubled, whose sheet has letters.
const DOUBLED: [u32; 9] = [4, 10, 10, 4, 10, 10, 6, 12, 12];

/// Its rows' lines, as they are written and as two editors leave them.
const LINES: [(&str, &str); 3] = [
    (
        "case S doubled, in upper case",
        "0200000400000A00000A\n0200000400000A00000A\n0200000600000C00000C\n",
    ),
    (
        "case S doubled, in lower case",
        "0200000400000a00000a\n0200000400000a00000a\n0200000600000c00000c\n",
    ),
    (
        "case S doubled, in both cases",
        "0200000400000a00000A\n0200000400000A00000a\n0200000600000c00000C\n",
    ),
];

/// Bytes that are no digits, each beside one that is; g and G among them.
const NO_DIGITS: [(&str, u8); 6] = [
    ("2F for a digit", 0x2F),
    ("3A for a digit", 0x3A),
    ("40 for a digit", 0x40),
    ("47 for a digit", 0x47),
    ("60 for a digit", 0x60),
    ("67 for a digit", 0x67),
];

/// A text read, with room for three rows.
fn reading(name: &'static str, text: Vec<u8>, numbers: [u64; 4], words: &[u32]) -> Case {
    let call = Call {
        text,
        ..call(Entry::ReadSheet, &DOUBLED, 2)
    };
    let due = Answer {
        numbers: numbers.to_vec(),
        words: words.to_vec(),
        ..Answer::default()
    };
    Case { name, call, due }
}

/// Letter case: S doubled is read in either, on ten processors, whose digit is a letter too, and answered on two, where the answer is
/// in upper case; it is written in upper case; and a byte beside the digits is refused at its place, in line one and in a row.
fn letter_cases() -> Vec<Case> {
    let result = b"110103\n1201000008\n1201000008\n120100000A\n";
    let mut cases = Vec::new();
    for (name, lines) in LINES {
        for first in ["010A03\n", "010a03\n"] {
            let text = format!("{first}{lines}").into_bytes();
            cases.push(reading(name, text, [0, 0, 10, 3], &DOUBLED));
        }
        let answered = Call {
            text: format!("010203\n{lines}").into_bytes(),
            ..call(Entry::AnswerSheet, &DOUBLED, 2)
        };
        cases.push(written(name, answered, result));
    }
    let sheet = format!("010A03\n{}", LINES[0].1).into_bytes();
    let writing = call(Entry::WriteSheet, &DOUBLED, 10);
    cases.push(written("case S doubled", writing, &sheet));
    for (name, byte) in NO_DIGITS {
        for place in [3, 20] {
            let mut text = sheet.clone();
            text[place] = byte;
            cases.push(reading(name, text, [1, place as u64, 0, 0], &[]));
        }
    }
    cases
}

/// Sheets in pieces: S cut at every place, S ended in every way, long texts, and each text that is read as a whole, cut.
fn piece_cases() -> Vec<Case> {
    let whole = text_cases();
    let sheet = whole[0].call.text.clone();
    let short = Case {
        name: "case S cut short in pieces",
        call: Call {
            text: sheet[..69].to_vec(),
            ..whole[0].call.clone()
        },
        due: Answer {
            numbers: vec![1, 69, 0, 0],
            ..Answer::default()
        },
    };
    [
        at_every_place(&whole[0]),
        end_cases(&sheet, &S),
        long_cases(&sheet, &S),
        cut_cases(&[short]),
        cut_cases(&whole),
        cut_cases(&letter_cases()),
    ]
    .concat()
}

/// Every case, with its rows in triples and, where an entry takes them so, in columns.
pub fn cases() -> Vec<Case> {
    let triples = [
        row_cases(),
        processor_cases(),
        density_cases(),
        sheet_cases(),
        text_cases(),
        letter_cases(),
        piece_cases(),
    ]
    .concat();
    let columns: Vec<Case> = triples.iter().filter_map(Case::in_columns).collect();
    [triples, columns].concat()
}

/// The cases that one of the programs answers otherwise.
pub fn wrong_cases(random: &mut Random) -> Vec<String> {
    let wrong = |case: Case| [case.proved_wrong(random), case.second_wrong(&DOCUMENT)];
    cases().into_iter().flat_map(wrong).flatten().collect()
}
