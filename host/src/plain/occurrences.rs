//! The occurrence list as flat arrays: the head places of symbol s are those from `starts[s]`
//! up to `starts[s + 1]`.

use super::rules::Table;
use crate::format::{MAX_HEADS, MAX_RULES, MAX_SYMBOLS};
use crate::names::Occurrence;

/// A head's place: its rule, and its number in written order.
#[derive(Clone, Copy, Default)]
pub struct HeadPlace {
    pub rule: u8,
    pub head: u8,
}

/// Every symbol's head places.
pub struct Occurrences {
    starts: [u16; MAX_SYMBOLS + 1],
    places: [HeadPlace; MAX_RULES * MAX_HEADS],
}

impl Occurrences {
    /// Counts each symbol's heads, then lists them in their order.
    pub fn of(table: &Table) -> Occurrences {
        let mut starts = [0; MAX_SYMBOLS + 1];
        for rule in &table.rules {
            for head in &rule.heads[..rule.head_count] {
                starts[usize::from(head.symbol) + 1] += 1;
            }
        }
        for symbol in 0..MAX_SYMBOLS {
            starts[symbol + 1] += starts[symbol];
        }
        let mut places = [HeadPlace::default(); MAX_RULES * MAX_HEADS];
        let mut next = starts;
        for (number, rule) in table.rules.iter().enumerate() {
            for head in (0..rule.head_count).rev() {
                let at = &mut next[usize::from(rule.heads[head].symbol)];
                places[usize::from(*at)] = HeadPlace {
                    rule: number as u8,
                    head: head as u8,
                };
                *at += 1;
            }
        }
        Occurrences { starts, places }
    }

    /// The head place of an occurrence, if the symbol has it.
    pub fn get(&self, symbol: u8, occurrence: Occurrence) -> Option<HeadPlace> {
        let symbol = usize::from(symbol);
        let at = usize::from(self.starts[symbol]) + occurrence.index();
        (at < usize::from(self.starts[symbol + 1])).then(|| self.places[at])
    }
}
