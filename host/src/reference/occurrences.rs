//! The head places of each symbol: rules from first to last, and inside a rule from the last
//! head to the first.

use super::table::Table;
use crate::names::{Occurrence, RuleNumber, Symbol};

/// A head's place in a table: its rule, and its number in written order from 0.
#[derive(Clone, Copy, Debug, PartialEq, Eq)]
pub struct HeadPlace {
    pub rule: RuleNumber,
    pub head: usize,
}

/// The occurrences of every symbol.
pub struct Occurrences {
    of_symbol: Vec<Vec<HeadPlace>>,
}

impl Occurrences {
    /// Lists each symbol's head places in their order.
    pub fn of(table: &Table) -> Occurrences {
        let mut of_symbol = vec![Vec::new(); table.arities.len()];
        for (number, rule) in table.rules.iter().enumerate() {
            for (head, pattern) in rule.heads.iter().enumerate().rev() {
                let rule = RuleNumber(number as u8);
                of_symbol[pattern.symbol.index()].push(HeadPlace { rule, head });
            }
        }
        Occurrences { of_symbol }
    }

    /// The head place of a symbol's occurrence, or nothing if it has no such one.
    pub fn get(&self, symbol: Symbol, occurrence: Occurrence) -> Option<HeadPlace> {
        self.of_symbol[symbol.index()]
            .get(occurrence.index())
            .copied()
    }

    /// The most occurrences that one symbol has; 0 without symbols.
    pub fn most(&self) -> usize {
        self.of_symbol.iter().map(Vec::len).max().unwrap_or(0)
    }
}
