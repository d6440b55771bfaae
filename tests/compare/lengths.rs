//! Lists made longer and shorter.

use second::random::Random;

/// Lengths drawn anew for columns of so many rows: each is one of three, which lie one after the other in steps. So all lists may be
/// equal, one or two longer or shorter, or all three different, some or all of them empty, or all with more than 64 words.
pub fn drawn(count: usize, random: &mut Random) -> [usize; 3] {
    let fewer = count.saturating_sub(1);
    let shortest = random.one_of(&[0, 0, 1, fewer, count, count, 63, 64, 65, 65, 66, 255]);
    let step = random.one_of(&[1, 1, 1, 2, 64, 256]);
    [0; 3].map(|_| shortest + step * random.below(3))
}

/// A list made as long as it is to be: its words over and over, 1 where it has none.
pub fn lengthened(list: &[u32], length: usize) -> Vec<u32> {
    let word = |place: usize| list.get(place % list.len().max(1)).copied().unwrap_or(1);
    (0..length).map(word).collect()
}
