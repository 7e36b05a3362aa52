//! How a run ends, with what does not depend on the order of partners: its number and, for 0,
//! the facts that remain as a multiset, without their identifiers.

use crate::format::{PLACES, STORED_RECORD_LEN};
use crate::names::Symbol;
use crate::outcome::Outcome;
use crate::reference::state::Fact;

/// A run's number, and the facts that remain, sorted; none unless the number is 0.
#[derive(Clone, Debug, PartialEq, Eq)]
pub struct Ending {
    pub number: u32,
    pub facts: Vec<Fact>,
}

impl Ending {
    /// The ending with these facts, in any order.
    pub fn new(number: u32, mut facts: Vec<Fact>) -> Ending {
        facts.sort_by_key(|fact| (fact.symbol, fact.arguments));
        Ending { number, facts }
    }

    /// The ending of a run that gave this result and this answer.
    pub fn of_run(outcome: &Outcome, answer: &[u8]) -> Ending {
        let stored = match outcome.number {
            0 => outcome.stored as usize,
            _ => 0,
        };
        let records = answer.chunks(STORED_RECORD_LEN).take(stored);
        Ending::new(outcome.number, records.map(fact).collect())
    }
}

/// The fact of an answer's record.
fn fact(record: &[u8]) -> Fact {
    let mut arguments = [0; PLACES];
    for (argument, bytes) in arguments.iter_mut().zip(record[6..].chunks(4)) {
        *argument = i32::from_le_bytes([bytes[0], bytes[1], bytes[2], bytes[3]]);
    }
    Fact {
        symbol: Symbol(record[5]),
        arguments,
    }
}
