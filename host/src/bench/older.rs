//! What an older library gives for a load, held against what it may give.

use std::fmt;

use super::loads::OldAnswer;

/// How an older library's call stands to the new one's.
#[derive(Clone, Debug, PartialEq, Eq)]
pub enum Standing {
    /// It gave the same.
    Same,
    /// It gave something else, as it may. It is timed all the same.
    OtherAnswer(String),
    /// It gave something else where it may not: it did other work, and is not timed.
    OtherWork(String),
}

impl Standing {
    /// The standing of a call that differs in this, or in nothing.
    pub fn new(difference: Option<String>, old_answer: OldAnswer) -> Standing {
        match (difference, old_answer) {
            (None, _) => Standing::Same,
            (Some(difference), OldAnswer::MayDiffer) => Standing::OtherAnswer(difference),
            (Some(difference), OldAnswer::Same) => Standing::OtherWork(difference),
        }
    }

    /// Whether the older library's time says something.
    pub fn is_timed(&self) -> bool {
        !matches!(self, Standing::OtherWork(_))
    }
}

impl fmt::Display for Standing {
    fn fmt(&self, to: &mut fmt::Formatter) -> fmt::Result {
        match self {
            Standing::Same => write!(to, "the same"),
            Standing::OtherAnswer(difference) => write!(to, "other, as it may: {}", difference),
            Standing::OtherWork(difference) => write!(to, "not comparable: {}", difference),
        }
    }
}
