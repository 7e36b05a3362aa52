//! The store in columns, by rising identifier, and the history.

use crate::format::{HISTORY, MAX_HEADS, PLACES, STORE, STORED_FACT, STORED_RECORD_LEN};
use crate::names::{FactId, RuleNumber};

/// A fact.
#[derive(Clone, Copy)]
pub struct Fact {
    pub symbol: u8,
    pub arguments: [i32; PLACES],
}

/// Identifiers in head order, 0 behind the last head.
pub type Chosen = [u32; MAX_HEADS];

/// Stored facts in columns.
pub struct Store {
    pub symbols: [u8; STORE],
    pub ids: [u32; STORE],
    pub arguments: [[i32; PLACES]; STORE],
    pub len: usize,
}

impl Store {
    /// An empty store.
    pub fn new() -> Store {
        Store {
            symbols: [0; STORE],
            ids: [0; STORE],
            arguments: [[0; PLACES]; STORE],
            len: 0,
        }
    }

    /// Puts a fact behind the last one.
    pub fn put(&mut self, id: FactId, fact: Fact) {
        self.symbols[self.len] = fact.symbol;
        self.ids[self.len] = id.0;
        self.arguments[self.len] = fact.arguments;
        self.len += 1;
    }

    /// The row of an identifier.
    pub fn row(&self, id: FactId) -> Option<usize> {
        self.ids[..self.len]
            .iter()
            .position(|stored| *stored == id.0)
    }

    /// Removes the facts of these identifiers, and closes the gaps.
    pub fn remove(&mut self, removed: &[u32]) {
        let mut kept = 0;
        for row in 0..self.len {
            if !removed.contains(&self.ids[row]) {
                self.symbols[kept] = self.symbols[row];
                self.ids[kept] = self.ids[row];
                self.arguments[kept] = self.arguments[row];
                kept += 1;
            }
        }
        self.len = kept;
    }

    /// Writes the stored facts as kind 17 records.
    pub fn write(&self, answer: &mut [u8]) {
        let records = answer.chunks_exact_mut(STORED_RECORD_LEN);
        for (row, record) in records.take(self.len).enumerate() {
            record[0] = STORED_FACT;
            record[1..5].copy_from_slice(&self.ids[row].to_le_bytes());
            record[5] = self.symbols[row];
            for (place, argument) in self.arguments[row].iter().enumerate() {
                record[6 + 4 * place..10 + 4 * place].copy_from_slice(&argument.to_le_bytes());
            }
        }
    }
}

/// Instances of rules without removed heads that fired.
pub struct History {
    entries: [(u8, Chosen); HISTORY],
    pub len: usize,
}

impl History {
    /// An empty history.
    pub fn new() -> History {
        History {
            entries: [(0, [0; MAX_HEADS]); HISTORY],
            len: 0,
        }
    }

    /// Whether an instance is in the history.
    pub fn holds(&self, rule: RuleNumber, chosen: &Chosen) -> bool {
        let same = |entry: &(u8, Chosen)| entry.0 == rule.0 && entry.1 == *chosen;
        self.entries[..self.len].iter().any(same)
    }

    /// Records an instance.
    pub fn put(&mut self, rule: RuleNumber, chosen: Chosen) {
        self.entries[self.len] = (rule.0, chosen);
        self.len += 1;
    }

    /// Drops the entries that name a removed fact.
    pub fn prune(&mut self, removed: &[u32]) {
        let mut kept = 0;
        for at in 0..self.len {
            if !self.entries[at].1.iter().any(|id| removed.contains(id)) {
                self.entries[kept] = self.entries[at];
                kept += 1;
            }
        }
        self.len = kept;
    }
}
