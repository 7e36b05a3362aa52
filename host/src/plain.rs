//! A plain fast engine with the scan that the proved engine uses: the active head first, then the
//! other heads in written order, each by a linear scan over the stored facts by rising identifier,
//! symbols compared first. The table is decoded once at the start of a call. It is the yardstick
//! for the proved engine's speed, and equal in results to the reference.

mod decode;
mod expression;
mod machine;
mod occurrences;
mod rules;
mod search;
mod store;
pub mod text;

use crate::format::{ANSWER_LEN, GOAL_FACT, GOAL_RECORD_LEN, MAX_GOAL, MAX_LIMIT};
use crate::outcome::{Outcome, Refusal};
use machine::Machine;
use rules::Table;
use store::Fact;

/// Checks a table, and decodes nothing.
pub fn check(table: &[u8]) -> Outcome {
    match decode::read(table, &mut ()) {
        Ok(_) => Outcome::GOOD,
        Err(refusal) => refusal.into(),
    }
}

/// Runs a goal, and writes the answer only for number 0.
pub fn run(table: &[u8], goal: &[u8], limit: u32, answer: &mut [u8]) -> Outcome {
    let table = match Table::read(table) {
        Ok(table) => table,
        Err(refusal) => return refusal.into(),
    };
    if let Err(refusal) = test_call(&table, goal, limit, answer.len()) {
        return refusal.into();
    }
    let mut machine = Machine::new(&table);
    for record in goal.chunks_exact(GOAL_RECORD_LEN).rev() {
        machine.wait(fact(record));
    }
    let outcome = machine.run(limit);
    if outcome.number == 0 {
        machine.write_answer(answer);
    }
    outcome
}

/// The tests behind the table's: 32, 34, 33, 35, 36.
fn test_call(table: &Table, goal: &[u8], limit: u32, answer_len: usize) -> Result<(), Refusal> {
    if goal.len() % GOAL_RECORD_LEN != 0 {
        return Err(Refusal::at(32, 0));
    }
    if goal.len() > MAX_GOAL * GOAL_RECORD_LEN {
        return Err(Refusal::at(34, 0));
    }
    let good = |record: &[u8]| is_goal_fact(table, record);
    if let Some(at) = goal.chunks_exact(GOAL_RECORD_LEN).position(|r| !good(r)) {
        return Err(Refusal::at(33, at));
    }
    if limit > MAX_LIMIT {
        return Err(Refusal::at(35, 0));
    }
    if answer_len < ANSWER_LEN {
        return Err(Refusal::at(36, 0));
    }
    Ok(())
}

/// Whether a record is a goal fact of the table's symbols.
fn is_goal_fact(table: &Table, record: &[u8]) -> bool {
    let later = |arity: usize| decode::zero(&record[2 + 4 * arity..]);
    record[0] == GOAL_FACT && table.symbols.arity(record[1]).map_or(false, later)
}

/// The fact of a tested goal record.
fn fact(record: &[u8]) -> Fact {
    let word = |at: usize| {
        i32::from_le_bytes([record[at], record[at + 1], record[at + 2], record[at + 3]])
    };
    Fact {
        symbol: record[1],
        arguments: [word(2), word(6), word(10), word(14)],
    }
}
