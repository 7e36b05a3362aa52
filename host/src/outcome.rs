//! What the calls return: the words of a result, those of a bound, and every number there is.

/// How many words a result has. The C header names it once more, for C alone.
pub const RESULT_WORDS: usize = 6;
/// How many of them stand before the counts: number and place.
pub const COUNTS_FROM: usize = 2;
/// How many words a bound has: W and the most steps.
pub const BOUND_WORDS: usize = 2;

/// The words of a result, in their order.
pub type ResultWords = [u32; RESULT_WORDS];
/// The words of a bound, in their order.
pub type BoundWords = [u32; BOUND_WORDS];

/// The numbers that a run can end with, done first.
pub const ENDINGS: [u32; 8] = [0, 1, 2, 3, 4, 5, 6, 7];
/// The numbers that a table can be refused with.
pub const TABLE_REFUSALS: [u32; 8] = [16, 17, 18, 19, 20, 21, 22, 23];
/// The numbers that a goal, a limit or an answer buffer can be refused with.
pub const GOAL_REFUSALS: [u32; 5] = [32, 33, 34, 35, 36];
/// The numbers that weights can be refused with.
pub const WEIGHT_REFUSALS: [u32; 3] = [40, 41, 42];
/// The numbers that a text, or the room for it or for its table, can be refused with.
pub const TEXT_REFUSALS: [u32; 4] = [48, 49, 50, 51];
/// Of these, the number that printing can give, which gets no text.
const PRINTING_REFUSALS: [u32; 1] = [51];
/// Of the table's, the numbers that reading can give: the grammar keeps the others out.
const READING_REFUSALS: [u32; 3] = [19, 20, 22];
/// Of the weights', the numbers that a search for weights can give, which looks at no weight that
/// it gets.
const FINDING_REFUSALS: [u32; 2] = [40, 42];

/// One more than the greatest number.
pub const PAST_NUMBERS: usize = 1 + TEXT_REFUSALS[TEXT_REFUSALS.len() - 1] as usize;

/// Every number that a call can give, in rising order.
pub fn numbers() -> Vec<u32> {
    [&table_numbers()[..], &TEXT_REFUSALS].concat()
}

/// Every number that a call without a text can give.
pub fn table_numbers() -> Vec<u32> {
    [
        &ENDINGS[..],
        &TABLE_REFUSALS,
        &GOAL_REFUSALS,
        &WEIGHT_REFUSALS,
    ]
    .concat()
}

/// Every number that a search for weights can give, found first.
pub fn findings() -> Vec<u32> {
    [&[0][..], &TABLE_REFUSALS, &FINDING_REFUSALS].concat()
}

/// Every number that reading a text can give, read first.
pub fn text_readings() -> Vec<u32> {
    [&[0][..], &READING_REFUSALS, &TEXT_REFUSALS].concat()
}

/// Every number that printing a text can give, printed first.
pub fn text_printings() -> Vec<u32> {
    [&[0][..], &TABLE_REFUSALS, &PRINTING_REFUSALS].concat()
}

/// A result: number, place and the counts.
#[derive(Clone, Copy, Debug, Default, PartialEq, Eq)]
pub struct Outcome {
    pub number: u32,
    pub place: u32,
    pub steps: u32,
    pub firings: u32,
    /// Identifiers given.
    pub identifiers: u32,
    /// Facts stored.
    pub stored: u32,
}

impl Outcome {
    /// Zeros: the result of checking a good table.
    pub const GOOD: Outcome = Outcome {
        number: 0,
        place: 0,
        steps: 0,
        firings: 0,
        identifiers: 0,
        stored: 0,
    };

    /// Its words in their order.
    pub fn words(&self) -> ResultWords {
        [
            self.number,
            self.place,
            self.steps,
            self.firings,
            self.identifiers,
            self.stored,
        ]
    }
}

impl From<ResultWords> for Outcome {
    fn from(words: ResultWords) -> Outcome {
        let [number, place, steps, firings, identifiers, stored] = words;
        Outcome {
            number,
            place,
            steps,
            firings,
            identifiers,
            stored,
        }
    }
}

/// A refusal, number 16 or above: all counts are 0.
#[derive(Clone, Copy, Debug, PartialEq, Eq)]
pub struct Refusal {
    pub number: u32,
    pub place: u32,
}

impl Refusal {
    /// A refusal with a place in a table or goal.
    pub fn at(number: u32, place: usize) -> Refusal {
        Refusal {
            number,
            place: place as u32,
        }
    }
}

impl From<Refusal> for Outcome {
    fn from(refusal: Refusal) -> Outcome {
        Outcome {
            number: refusal.number,
            place: refusal.place,
            ..Outcome::GOOD
        }
    }
}

/// What reading a text or printing one returns, beside the bytes.
#[derive(Clone, Copy, Debug, Default, PartialEq, Eq)]
pub struct Written {
    pub outcome: Outcome,
    /// How many bytes are written; 0 unless the number is 0.
    pub length: u32,
}

impl Written {
    /// Writes these bytes to the start of a room that is long enough.
    pub fn to(room: &mut [u8], bytes: &[u8]) -> Written {
        room[..bytes.len()].copy_from_slice(bytes);
        Written {
            outcome: Outcome::GOOD,
            length: bytes.len() as u32,
        }
    }
}

impl From<Refusal> for Written {
    fn from(refusal: Refusal) -> Written {
        Written {
            outcome: refusal.into(),
            length: 0,
        }
    }
}

/// What a weighing returns; W and the step bound are 0 unless the number is 0.
#[derive(Clone, Copy, Debug, Default, PartialEq, Eq)]
pub struct Weighing {
    pub outcome: Outcome,
    /// W, the weight of the goal.
    pub weight: u32,
    /// The most steps that a run of this table and goal takes.
    pub bound: u32,
}
