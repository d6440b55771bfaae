//! The texts: task sheets, result sheets, and the line that a refusal is told by.

use crate::checks::Refusal;
use crate::program::Program;

/// A number in so many digits, big end first.
pub fn number_text(number: u64, digits: usize) -> String {
    format!("{number:0digits$X}")
}

/// The text of a task sheet.
pub fn sheet_text(program: &Program, processors: u32, words: &[u32]) -> String {
    let number = program.number_text;
    let mut text = format!(
        "01{}{}\n",
        number(processors as u64, 2),
        number(words.len() as u64 / 3, 2)
    );
    for row in words.chunks_exact(3) {
        let fields: Vec<String> = row.iter().map(|&word| number(word as u64, 6)).collect();
        text += &format!("02{}\n", fields.concat());
    }
    text
}

/// The text of a result sheet.
pub fn result_text(program: &Program, accepted: bool, marked: &[bool], bounds: &[u64]) -> String {
    let number = program.number_text;
    let mut text = format!(
        "11{}{}\n",
        number(accepted as u64, 2),
        number(bounds.len() as u64, 2)
    );
    for (&is_marked, &bound) in marked.iter().zip(bounds) {
        text += &format!("12{}{}\n", number(is_marked as u64, 2), number(bound, 6));
    }
    text
}

/// The line that tells a refusal.
pub fn refusal_line(program: &Program, refusal: Refusal) -> String {
    let number = program.number_text;
    format!(
        "1F{}{}\n",
        number(refusal.number as u64, 2),
        number(refusal.place as u64, 4)
    )
}
