//! What every entry answers: refused, or worked out.

use crate::call::{Answer, Behind, Call, Entry};
use crate::checks::{refusal, rows_said, Refusal};
use crate::one_processor::Verdict;
use crate::one_row::one_row;
use crate::pieces::in_pieces;
use crate::program::Program;
use crate::refine::marked_rows;
use crate::rows::Sheet;
use crate::writer::{result_text, sheet_text};

/// How many numbers an entry returns.
pub fn how_many_numbers(entry: Entry) -> usize {
    match entry.question() {
        Entry::OneProcessor | Entry::ReadSheet | Entry::Pieces => 4,
        _ => 3,
    }
}

/// A refused call: its number and place, every other number 0, and nothing written.
pub fn refused(entry: Entry, refusal: Refusal) -> Answer {
    let mut numbers = vec![0; how_many_numbers(entry)];
    numbers[0] = refusal.number as u64;
    numbers[1] = refusal.place as u64;
    Answer {
        numbers,
        ..Answer::default()
    }
}

/// An answer of numbers after refusal 0 and place 0.
fn numbers(rest: &[u64]) -> Answer {
    let numbers = [&[0, 0], rest].concat();
    Answer {
        numbers,
        ..Answer::default()
    }
}

/// An answer that is a text, and its length.
fn text(text: String) -> Answer {
    let text = text.into_bytes();
    Answer {
        text: text.clone(),
        ..numbers(&[text.len() as u64])
    }
}

/// The sheet that a call's rows and processors say.
fn sheet_of(program: &Program, call: &Call) -> Sheet {
    Sheet {
        rows: rows_said(program, call),
        processors: call.processors as u64,
    }
}

/// A call as the program takes it: with every number and every length as it is given.
pub fn taken(call: &Call) -> Call {
    call.clone()
}

/// The answer to any call.
pub fn answer(program: &Program, call: &Call) -> Answer {
    let call = &(program.taken)(call);
    match call.entry {
        Entry::ReadSheet => read_sheet(program, call),
        Entry::AnswerSheet => answer_sheet(program, call),
        Entry::Pieces => in_pieces(program, call),
        _ => match refusal(program, call) {
            Some(found) => (program.refused)(call.entry, found),
            None => worked_out(program, call),
        },
    }
}

/// The answer to a call on lent rows that is not refused.
fn worked_out(program: &Program, call: &Call) -> Answer {
    match call.entry.question() {
        Entry::OneRow => bound_of_row(program, call),
        Entry::OneProcessor => outcome(program, call),
        Entry::Density => density_answer(program, call),
        Entry::WriteSheet => text(sheet_text(program, call.processors, &call.words)),
        Entry::WriteResult => text(result_sheet(program, call)),
        _ => bounds_and_marks(program, call),
    }
}

/// The one-row question: the bound, 0 where there is none.
fn bound_of_row(program: &Program, call: &Call) -> Answer {
    let bounds: Vec<u64> = call.bounds.iter().map(|&bound| bound as u64).collect();
    let found = one_row(
        program,
        &sheet_of(program, call),
        call.method,
        call.row as usize,
        &bounds,
    );
    numbers(&[found.unwrap_or(0)])
}

/// Refining: the marks, and a bound per row in the lent words.
fn bounds_and_marks(program: &Program, call: &Call) -> Answer {
    let sheet = sheet_of(program, call);
    let bounds = (program.refined)(program, &sheet, call.method);
    let marked = marked_rows(program, &sheet, call.method, &bounds);
    let words = bounds.iter().map(|&bound| bound as u32).collect();
    Answer {
        words,
        ..numbers(&[(program.marks)(&marked)])
    }
}

/// The result sheet's text.
fn result_sheet(program: &Program, call: &Call) -> String {
    let sheet = sheet_of(program, call);
    let bounds = (program.refined)(program, &sheet, call.method);
    let marked = marked_rows(program, &sheet, call.method, &bounds);
    result_text(program, (program.accepted)(&marked), &marked, &bounds)
}

/// The demand test: 0 undecided, 1 miss, 2 fits, and the length.
fn outcome(program: &Program, call: &Call) -> Answer {
    let rows = rows_said(program, call);
    match (program.verdict)(program, &rows, call.horizon as u64) {
        Verdict::Undecided => numbers(&[0, 0]),
        Verdict::Miss(length) => numbers(&[1, length]),
        Verdict::Fits(length) => numbers(&[2, length]),
    }
}

/// The density test: its answer's number.
fn density_answer(program: &Program, call: &Call) -> Answer {
    let answer = (program.density)(program, &sheet_of(program, call));
    numbers(&[(program.density_number)(answer)])
}

/// The text of a call as far as any reader goes: of the bytes 0 behind it the first is one too many.
fn text_met(call: &Call) -> Vec<u8> {
    let mut text = call.text.clone();
    text.extend((call.behind.text > 0).then_some(0));
    text
}

/// The call that a sheet's text makes of a call, or the refusal that its line form or its numbers give.
fn call_in_text(program: &Program, call: &Call) -> Result<Call, Refusal> {
    let written = (program.read)(program, &text_met(call)).map_err(|place| Refusal {
        number: 1,
        place: place as u32,
    })?;
    let inner = Call {
        words: written.words,
        processors: written.processors,
        method: 1,
        behind: Behind::default(),
        ..call.clone()
    };
    match refusal(program, &inner) {
        Some(found) => Err(found),
        None => Ok(inner),
    }
}

/// Reading a sheet: processors and rows, and the rows' words.
fn read_sheet(program: &Program, call: &Call) -> Answer {
    match call_in_text(program, call) {
        Err(found) => (program.refused)(call.entry, found),
        Ok(inner) => {
            let rows = inner.words.len() as u64 / 3;
            Answer {
                words: inner.words,
                ..numbers(&[inner.processors as u64, rows])
            }
        }
    }
}

/// The whole answer to a sheet's text: the RTA result sheet, or the line that tells the refusal; refused only where it does not fit.
fn answer_sheet(program: &Program, call: &Call) -> Answer {
    let told = match call_in_text(program, call) {
        Err(found) => (program.refusal_line)(program, found),
        Ok(inner) => result_sheet(program, &inner),
    };
    if told.len() > call.room {
        return (program.refused)(
            call.entry,
            Refusal {
                number: 7,
                place: 0,
            },
        );
    }
    text(told)
}
