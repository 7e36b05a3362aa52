//! A state: a stack, a store, a history and the next identifier.

use crate::format::{PLACES, STORED_FACT, STORED_RECORD_LEN};
use crate::names::{FactId, Occurrence, RuleNumber, Symbol};

/// A ground fact; the places that its symbol does not use are 0.
#[derive(Clone, Copy, Debug, PartialEq, Eq)]
pub struct Fact {
    pub symbol: Symbol,
    pub arguments: [i32; PLACES],
}

/// A stack entry.
#[derive(Clone, Copy, Debug, PartialEq, Eq)]
pub enum Entry {
    Waiting(Fact),
    /// An active fact; the symbol stands here because the fact may have left the store.
    Active(FactId, Symbol, Occurrence),
    Fail,
}

/// A stored fact.
#[derive(Clone, Copy, Debug, PartialEq, Eq)]
pub struct Stored {
    pub id: FactId,
    pub fact: Fact,
}

/// A history entry: a rule, and the identifiers in head order.
#[derive(Clone, Debug, PartialEq, Eq)]
pub struct Fired {
    pub rule: RuleNumber,
    pub identifiers: Vec<FactId>,
}

/// Stack, store, history and next identifier.
#[derive(Clone, Debug, PartialEq, Eq)]
pub struct State {
    /// The top is the last.
    pub stack: Vec<Entry>,
    /// By rising identifier.
    pub store: Vec<Stored>,
    pub history: Vec<Fired>,
    pub next: FactId,
}

impl State {
    /// The state that a goal starts from: its facts wait, the first on top.
    pub fn start(goal: &[Fact]) -> State {
        State {
            stack: goal
                .iter()
                .rev()
                .map(|fact| Entry::Waiting(*fact))
                .collect(),
            store: Vec::new(),
            history: Vec::new(),
            next: FactId::FIRST,
        }
    }

    /// Puts entries on the stack, the first on top.
    pub fn push_all(&mut self, entries: &[Entry]) {
        self.stack.extend(entries.iter().rev());
    }

    /// Takes a fact out of the store.
    pub fn remove(&mut self, id: FactId) {
        self.store.retain(|stored| stored.id != id);
    }

    /// Drops the history entries that name a fact.
    pub fn forget(&mut self, id: FactId) {
        self.history
            .retain(|fired| !fired.identifiers.contains(&id));
    }

    /// Whether the history holds this instance.
    pub fn has_fired(&self, rule: RuleNumber, identifiers: &[FactId]) -> bool {
        let same = |fired: &Fired| fired.rule == rule && fired.identifiers == identifiers;
        self.history.iter().any(same)
    }

    /// The answer's bytes: kind 17 records by rising identifier.
    pub fn answer(&self) -> Vec<u8> {
        self.store.iter().flat_map(Stored::record).collect()
    }
}

impl Stored {
    /// The kind 17 record of a stored fact.
    pub fn record(&self) -> Vec<u8> {
        let mut bytes = Vec::with_capacity(STORED_RECORD_LEN);
        bytes.push(STORED_FACT);
        bytes.extend(self.id.0.to_le_bytes());
        bytes.push(self.fact.symbol.0);
        for argument in self.fact.arguments {
            bytes.extend(argument.to_le_bytes());
        }
        bytes
    }
}
