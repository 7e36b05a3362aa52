//! A run: steps up to an ending, and the answer of a done one.

use super::check;
use super::goal;
use super::state::{Fact, State};
use super::step::{Machine, Pruning, Step};
use super::table::Table;
use crate::format::{ANSWER_LEN, MAX_LIMIT};
use crate::outcome::{Outcome, Refusal};

/// Runs a goal; tests table, goal, 35 and 36 first, and writes the answer only for number 0.
pub fn run(table: &[u8], goal: &[u8], limit: u32, answer: &mut [u8]) -> Outcome {
    let (table, goal) = match admit(table, goal, limit, answer.len()) {
        Ok(read) => read,
        Err(refusal) => return refusal.into(),
    };
    let (outcome, state) = run_read(&table, &goal, limit, Pruning::Prune, |_, _| {});
    if outcome.number == 0 {
        let bytes = state.answer();
        answer[..bytes.len()].copy_from_slice(&bytes);
    }
    outcome
}

/// A run's tests in their order: table, goal, step limit (35), answer buffer (36).
pub fn admit(
    table: &[u8],
    goal: &[u8],
    limit: u32,
    answer_len: usize,
) -> Result<(Table, Vec<Fact>), Refusal> {
    let table = check::read(table)?;
    let goal = goal::read(goal, &table)?;
    if limit > MAX_LIMIT {
        return Err(Refusal::at(35, 0));
    }
    if answer_len < ANSWER_LEN {
        return Err(Refusal::at(36, 0));
    }
    Ok((table, goal))
}

/// Runs a read goal up to an ending: the result, and the state it reports. `watch` is shown
/// each step with the state after it.
pub fn run_read(
    table: &Table,
    goal: &[Fact],
    limit: u32,
    pruning: Pruning,
    mut watch: impl FnMut(&Step, &State),
) -> (Outcome, State) {
    let machine = Machine::new(table, pruning);
    let mut state = State::start(goal);
    let mut counts = Outcome::default();
    while let Some(top) = state.stack.last() {
        if counts.steps == limit {
            return (counts.ended(2, 0, &state), state);
        }
        let step = match machine.decide(&state, *top) {
            Ok(step) => step,
            Err(ending) => return (counts.ended(ending.number, ending.place, &state), state),
        };
        machine.apply(&mut state, &step);
        counts.steps += 1;
        counts.firings += u32::from(matches!(step, Step::Simplify(_) | Step::Propagate(_)));
        watch(&step, &state);
        if step == Step::Fail {
            return (counts.ended(1, 0, &state), state);
        }
    }
    (counts.ended(0, 0, &state), state)
}

impl Outcome {
    /// The result of an ending: its number and place, the counts so far, and the state's.
    fn ended(self, number: u32, place: u32, state: &State) -> Outcome {
        Outcome {
            number,
            place,
            identifiers: state.next.0 - 1,
            stored: state.store.len() as u32,
            ..self
        }
    }
}
