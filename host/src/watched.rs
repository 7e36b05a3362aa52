//! The run of a case on the second engine, watched entry by entry: so it can be seen what cases reach.

use crate::cases::{Call, Case};
use crate::reference::run::admit;
use crate::reference::state::{Entry, State};
use crate::reference::step::{Machine, Pruning, Step};

/// Looks at each entry that comes to the top, before it is decided on, and tells whether the stack is
/// empty in the end. Where the case is no run, or is refused, nothing is looked at, and it is not.
pub fn watch(case: &Case, mut look: impl FnMut(&Machine, &State, Entry)) -> bool {
    let admitted = admit(&case.table, &case.goal, case.limit, case.answer_len);
    let (table, goal) = match admitted {
        Ok(read) if case.call == Call::Run => read,
        _ => return false,
    };
    let machine = Machine::new(&table, Pruning::Prune);
    let mut state = State::start(&goal);
    for _ in 0..case.limit {
        let top = match state.stack.last() {
            Some(top) => *top,
            None => break,
        };
        look(&machine, &state, top);
        match machine.decide(&state, top) {
            Ok(Step::Fail) | Err(_) => break,
            Ok(step) => machine.apply(&mut state, &step),
        }
    }
    state.stack.is_empty()
}
