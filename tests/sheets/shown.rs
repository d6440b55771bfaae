//! Rows and numbers in words.

/// Rows as triples, twins that follow each other counted, with words that are left over behind them.
pub fn rows_shown(words: &[u32]) -> String {
    let rows: Vec<&[u32]> = words.chunks(3).collect();
    let counted = |twins: &[&[u32]]| match twins.len() {
        1 => format!("({})", joined(twins[0])),
        count => format!("{count} x ({})", joined(twins[0])),
    };
    let shown: Vec<String> = rows
        .chunk_by(|one, next| one == next)
        .map(counted)
        .collect();
    if shown.is_empty() {
        "none".to_string()
    } else {
        shown.join(" ")
    }
}

/// Numbers with commas between them.
pub fn joined<T: ToString>(numbers: &[T]) -> String {
    let shown: Vec<String> = numbers.iter().map(T::to_string).collect();
    shown.join(",")
}
