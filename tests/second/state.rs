//! The state between the pieces of a sheet.

/// How many words a state has.
pub const WORDS: usize = 192;

/// How many numbers a state has: four, the words, whether it has ended, and the four of its answer.
pub const NUMBERS: usize = WORDS + 9;

/// A state, with its numbers in the order of the C face.
#[derive(Clone, PartialEq, Eq, Debug)]
pub struct State {
    pub taken: u32,
    pub wrong: u32,
    pub processors: u32,
    pub rows: u32,
    pub words: Vec<u32>,
    pub ended: u32,
    pub answer: Vec<u32>,
}

impl State {
    /// The state that some numbers say; those that are missing are 0.
    pub fn of(numbers: &[u32]) -> State {
        let at = |place: usize| numbers.get(place).copied().unwrap_or(0);
        State {
            taken: at(0),
            wrong: at(1),
            processors: at(2),
            rows: at(3),
            words: (4..4 + WORDS).map(at).collect(),
            ended: at(4 + WORDS),
            answer: (5 + WORDS..NUMBERS).map(at).collect(),
        }
    }

    /// The numbers that say the state.
    pub fn numbers(&self) -> Vec<u32> {
        let front = [self.taken, self.wrong, self.processors, self.rows];
        let lists: [&[u32]; 4] = [&front, &self.words, &[self.ended], &self.answer];
        lists.concat()
    }
}
