//! The partner search: depth first over the heads left to match, identifiers tried upward.

use super::expression::{holds, Values, CONSTANT, VARIABLE};
use super::rules::{Head, Rule};
use super::store::{Chosen, History, Store};
use crate::format::{MAX_HEADS, VARIABLES};
use crate::names::RuleNumber;

/// What a search comes to.
#[derive(Clone, Copy, PartialEq, Eq)]
pub enum Found {
    Nothing,
    Applies,
    Undefined,
}

/// A search for one occurrence; what it found stays in `chosen` and `values`.
pub struct Search<'a> {
    pub rule: &'a Rule,
    pub number: RuleNumber,
    pub place: usize,
    pub store: &'a Store,
    pub history: &'a History,
    pub chosen: Chosen,
    pub values: Values,
}

impl<'a> Search<'a> {
    /// A search with the fact of a row active at head `place`.
    pub fn new(
        rule: &'a Rule,
        number: RuleNumber,
        place: usize,
        store: &'a Store,
        history: &'a History,
    ) -> Search<'a> {
        Search {
            rule,
            number,
            place,
            store,
            history,
            chosen: [0; MAX_HEADS],
            values: [0; VARIABLES],
        }
    }

    /// Matches the active fact first, then looks for partners.
    pub fn start(&mut self, row: usize) -> Found {
        match self.bind(&self.rule.heads[self.place], row, 0) {
            None => Found::Nothing,
            Some(bound) => {
                self.chosen[self.place] = self.store.ids[row];
                self.from(0, bound)
            }
        }
    }

    /// Gives the heads from `at` on their facts; `bound` has a bit for each bound variable.
    fn from(&mut self, at: usize, bound: u32) -> Found {
        if at == self.rule.head_count {
            return self.judge();
        }
        if at == self.place {
            return self.from(at + 1, bound);
        }
        let rule: &'a Rule = self.rule;
        let head = &rule.heads[at];
        for row in 0..self.store.len {
            if self.store.symbols[row] != head.symbol {
                continue;
            }
            let id = self.store.ids[row];
            if self.chosen.contains(&id) {
                continue;
            }
            if let Some(bound) = self.bind(head, row, bound) {
                self.chosen[at] = id;
                let found = self.from(at + 1, bound);
                if found != Found::Nothing {
                    return found;
                }
                self.chosen[at] = 0;
            }
        }
        Found::Nothing
    }

    /// Matches a head with a row of its symbol. A value bound here is overwritten when the
    /// head is tried with the next row, so that nothing needs to be undone.
    fn bind(&mut self, head: &Head, row: usize, mut bound: u32) -> Option<u32> {
        for (slot, argument) in head.slots.iter().zip(self.store.arguments[row]) {
            match slot.tag {
                CONSTANT if slot.value != argument => return None,
                VARIABLE if bound & (1 << slot.value) == 0 => {
                    bound |= 1 << slot.value;
                    self.values[slot.value as usize] = argument;
                }
                VARIABLE if self.values[slot.value as usize] != argument => return None,
                _ => {}
            }
        }
        Some(bound)
    }

    /// A complete match: passed over if in the history or if its guard is false.
    fn judge(&self) -> Found {
        let recorded = self.rule.kept_count == self.rule.head_count;
        if recorded && self.history.holds(self.number, &self.chosen) {
            return Found::Nothing;
        }
        for guard in &self.rule.guards[..self.rule.guard_count] {
            let left = guard.left.value(&self.values);
            match (left, guard.right.value(&self.values)) {
                (Some(a), Some(b)) if holds(guard.comparator, a, b) => {}
                (Some(_), Some(_)) => return Found::Nothing,
                _ => return Found::Undefined,
            }
        }
        Found::Applies
    }
}
