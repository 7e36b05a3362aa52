//! Identifiers, symbols, rules and occurrences count separate things; each has its own type, so
//! that none passes as another.

/// The identifier of a fact; the first one given is 1.
#[derive(Clone, Copy, Debug, PartialEq, Eq, PartialOrd, Ord, Hash)]
pub struct FactId(pub u32);

/// The number of a symbol, from 0.
#[derive(Clone, Copy, Debug, PartialEq, Eq, PartialOrd, Ord, Hash)]
pub struct Symbol(pub u8);

/// The number of a rule, from 0.
#[derive(Clone, Copy, Debug, PartialEq, Eq, PartialOrd, Ord, Hash)]
pub struct RuleNumber(pub u8);

/// The number of an occurrence of a symbol, from 1.
#[derive(Clone, Copy, Debug, PartialEq, Eq, PartialOrd, Ord, Hash)]
pub struct Occurrence(pub u32);

impl FactId {
    /// The first identifier of a run.
    pub const FIRST: FactId = FactId(1);

    /// The identifier given after this one.
    pub fn next(self) -> FactId {
        FactId(self.0 + 1)
    }
}

impl Symbol {
    /// The symbol's index in lists that have one element for each symbol.
    pub fn index(self) -> usize {
        usize::from(self.0)
    }
}

impl RuleNumber {
    /// The rule's index in the list of rules.
    pub fn index(self) -> usize {
        usize::from(self.0)
    }
}

impl Occurrence {
    /// The occurrence at which a fact becomes active.
    pub const FIRST: Occurrence = Occurrence(1);

    /// The occurrence tried after this one.
    pub fn next(self) -> Occurrence {
        Occurrence(self.0 + 1)
    }

    /// The occurrence's index in its symbol's list, which begins with occurrence 1.
    pub fn index(self) -> usize {
        self.0 as usize - 1
    }
}
