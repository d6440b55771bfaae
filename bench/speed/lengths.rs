//! The demand test as it is defined: every length in turn.

/// The demand test: outcome (0 undecided, 1 miss, 2 fits) and length.
pub fn one_processor(words: &[u32], horizon: u32) -> (u32, u32) {
    for length in 1..=horizon {
        let (demand, begun) = sums(words, length);
        if demand > length {
            return (1, length);
        }
        if begun == length {
            return (2, length);
        }
    }
    (0, 0)
}

/// The demand in a length, and the cost of all jobs that can begin within it.
fn sums(words: &[u32], length: u32) -> (u32, u32) {
    let (mut demand, mut begun) = (0, 0);
    for row in words.chunks_exact(3) {
        let (cost, deadline, period) = (row[0], row[1], row[2]);
        if length >= deadline {
            demand += ((length - deadline) / period + 1) * cost;
        }
        begun += length.div_ceil(period) * cost;
    }
    (demand, begun)
}
