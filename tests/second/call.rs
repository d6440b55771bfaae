//! What a call of a public entry is given and what it gives.

/// The public entries. Those that are named for columns are lent rows in three lists, and ask what the entries without that name
/// ask of triples.
#[derive(Clone, Copy, PartialEq, Eq, Debug)]
pub enum Entry {
    OneRow,
    RefineRounds,
    RefineAtOnce,
    OneProcessor,
    ReadSheet,
    WriteSheet,
    WriteResult,
    AnswerSheet,
    OneRowColumns,
    RefineRoundsColumns,
    RefineAtOnceColumns,
    OneProcessorColumns,
    WriteResultColumns,
    Density,
    DensityColumns,
    Pieces,
}

impl Entry {
    /// What an entry asks, however the rows are lent: the entry on triples that asks the same, or the entry itself.
    pub fn question(self) -> Entry {
        match self {
            Entry::OneRowColumns => Entry::OneRow,
            Entry::RefineRoundsColumns => Entry::RefineRounds,
            Entry::RefineAtOnceColumns => Entry::RefineAtOnce,
            Entry::OneProcessorColumns => Entry::OneProcessor,
            Entry::WriteResultColumns => Entry::WriteResult,
            Entry::DensityColumns => Entry::Density,
            other => other,
        }
    }

    /// Whether an entry is lent rows in three lists.
    pub fn takes_columns(self) -> bool {
        self.question() != self
    }
}

/// Three lists of words: costs, deadlines, periods.
pub type Columns = [Vec<u32>; 3];

/// How many elements of 0 are lent behind the words, the columns, the bounds and the text of a call: none, or 65,536 and more, too
/// many to be written out.
#[derive(Clone, Copy, PartialEq, Eq, Debug, Default)]
pub struct Behind {
    pub words: usize,
    pub columns: [usize; 3],
    pub bounds: usize,
    pub text: usize,
}

/// A step of a sheet that comes in pieces: the next so many bytes of the text, or its end, with so many words of room.
#[derive(Clone, Copy, PartialEq, Eq, Debug)]
pub enum Step {
    Piece(usize),
    End(usize),
}

/// A call: everything that an entry may be given. An entry looks only at what is its own.
#[derive(Clone, PartialEq, Eq, Debug)]
pub struct Call {
    pub entry: Entry,
    pub words: Vec<u32>,
    pub columns: Columns,
    pub processors: u32,
    pub method: u32,
    pub bounds: Vec<u32>,
    pub row: u32,
    pub horizon: u32,
    pub text: Vec<u8>,
    pub behind: Behind,
    /// How many words or bytes the lent output has.
    pub room: usize,
    /// The numbers of the state that a sheet in pieces goes on from; none where it begins at the start.
    pub state: Vec<u32>,
    pub steps: Vec<Step>,
}

impl Call {
    /// A call of an entry that is given nothing yet: no rows, no text, no room, one processor, RTA, row 0, horizon 1.
    pub fn of(entry: Entry) -> Call {
        Call {
            entry,
            words: Vec::new(),
            columns: Columns::default(),
            processors: 1,
            method: 1,
            bounds: Vec::new(),
            row: 0,
            horizon: 1,
            text: Vec::new(),
            behind: Behind::default(),
            room: 0,
            state: Vec::new(),
            steps: Vec::new(),
        }
    }

    /// The bytes of each piece, in order, and none at an end; the text is cut from its front, and what is left of it comes not at all.
    pub fn pieces(&self) -> Vec<(Step, &[u8])> {
        let mut rest = &self.text[..];
        let mut cut = |&step: &Step| match step {
            Step::Piece(length) => {
                let (piece, behind) = rest.split_at(length.min(rest.len()));
                rest = behind;
                (step, piece)
            }
            Step::End(_) => (step, &rest[..0]),
        };
        self.steps.iter().map(&mut cut).collect()
    }

    /// The place of the last piece among the steps.
    pub fn last_piece(&self) -> Option<usize> {
        let is_piece = |step: &Step| matches!(step, Step::Piece(_));
        self.steps.iter().rposition(is_piece)
    }

    /// How many words each end of a sheet in pieces is lent.
    pub fn rooms(&self) -> Vec<usize> {
        let room = |step: &Step| match step {
            Step::Piece(_) => None,
            Step::End(room) => Some(*room),
        };
        self.steps.iter().filter_map(room).collect()
    }

    /// How many words are lent, those behind them counted.
    pub fn word_count(&self) -> usize {
        self.words.len() + self.behind.words
    }

    /// How many words each column has, those behind them counted.
    pub fn column_lengths(&self) -> [usize; 3] {
        [0, 1, 2].map(|list| self.columns[list].len() + self.behind.columns[list])
    }
}

/// What a call gives: its numbers in the order of the C face, and what it puts at the front of the lent output. A sheet in pieces gives
/// the numbers of every state, and words at the front of what each end is lent.
#[derive(Clone, PartialEq, Eq, Debug, Default)]
pub struct Answer {
    pub numbers: Vec<u64>,
    pub words: Vec<u32>,
    pub text: Vec<u8>,
    pub at_ends: Vec<Vec<u32>>,
}
