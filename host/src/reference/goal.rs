//! A goal: facts of 18 bytes each, tested in the order 32, 34, 33.

use super::fields::all_zero;
use super::state::Fact;
use super::table::Table;
use crate::format::{GOAL_FACT, GOAL_RECORD_LEN, MAX_GOAL, PLACES};
use crate::names::Symbol;
use crate::outcome::Refusal;

/// Reads a goal for a good table.
pub fn read(bytes: &[u8], table: &Table) -> Result<Vec<Fact>, Refusal> {
    if bytes.len() % GOAL_RECORD_LEN != 0 {
        return Err(Refusal::at(32, 0));
    }
    let records = bytes.chunks(GOAL_RECORD_LEN);
    if records.len() > MAX_GOAL {
        return Err(Refusal::at(34, 0));
    }
    let refused = |at| Refusal::at(33, at);
    let numbered = records.enumerate();
    numbered
        .map(|(at, record)| fact(record, table).ok_or_else(|| refused(at)))
        .collect()
}

/// A goal fact: kind 16, a declared symbol, four arguments of which each later place is zero.
fn fact(record: &[u8], table: &Table) -> Option<Fact> {
    let symbol = Symbol(record[1]);
    let arity = table.arity(symbol)?;
    if record[0] != GOAL_FACT || !all_zero(&record[2 + 4 * arity..]) {
        return None;
    }
    let mut arguments = [0; PLACES];
    for (argument, bytes) in arguments.iter_mut().zip(record[2..].chunks(4)) {
        *argument = i32::from_le_bytes([bytes[0], bytes[1], bytes[2], bytes[3]]);
    }
    Some(Fact { symbol, arguments })
}
