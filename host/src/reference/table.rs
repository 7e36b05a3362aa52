//! A decoded table: only what is used of each record, so that no unused place can be read.

use super::numbers::{Comparator, Operation};
use crate::names::{RuleNumber, Symbol};

/// A variable of a rule, 0..15.
#[derive(Clone, Copy, Debug, PartialEq, Eq, Hash)]
pub struct Variable(pub u8);

/// A used slot.
#[derive(Clone, Copy, Debug, PartialEq, Eq)]
pub enum Slot {
    Constant(i32),
    Variable(Variable),
}

/// An expression: the first slot alone, or an operation on two.
#[derive(Clone, Copy, Debug, PartialEq, Eq)]
pub enum Expression {
    Alone(Slot),
    Of(Operation, Slot, Slot),
}

/// A head: a symbol and its used slots.
#[derive(Clone, Debug, PartialEq, Eq)]
pub struct Head {
    pub symbol: Symbol,
    pub slots: Vec<Slot>,
}

/// A guard comparison.
#[derive(Clone, Debug, PartialEq, Eq)]
pub struct Guard {
    pub comparator: Comparator,
    pub left: Expression,
    pub right: Expression,
}

/// A body item.
#[derive(Clone, Debug, PartialEq, Eq)]
pub enum Item {
    Fact {
        symbol: Symbol,
        arguments: Vec<Expression>,
    },
    Fail,
}

/// A rule; its heads stand in written order, the kept ones first.
#[derive(Clone, Debug, Default, PartialEq, Eq)]
pub struct Rule {
    pub heads: Vec<Head>,
    /// How many of the heads are kept.
    pub kept: usize,
    pub guards: Vec<Guard>,
    pub body: Vec<Item>,
}

/// A table: the arity of each symbol, and the rules.
#[derive(Clone, Debug, Default, PartialEq, Eq)]
pub struct Table {
    pub arities: Vec<usize>,
    pub rules: Vec<Rule>,
}

impl Expression {
    /// The variables that the expression names.
    pub fn variables(&self) -> Vec<Variable> {
        let slots = match *self {
            Expression::Alone(slot) => vec![slot],
            Expression::Of(_, first, second) => vec![first, second],
        };
        slots.into_iter().filter_map(Slot::variable).collect()
    }
}

impl Slot {
    /// The variable, if the slot is one.
    pub fn variable(self) -> Option<Variable> {
        match self {
            Slot::Variable(variable) => Some(variable),
            Slot::Constant(_) => None,
        }
    }
}

impl Rule {
    /// Whether some head names the variable.
    pub fn binds(&self, variable: Variable) -> bool {
        let mut slots = self.heads.iter().flat_map(|head| &head.slots);
        slots.any(|slot| *slot == Slot::Variable(variable))
    }

    /// Whether the head is a removed one.
    pub fn removes(&self, head: usize) -> bool {
        head >= self.kept
    }

    /// Whether the history holds instances of this rule: it has no removed head.
    pub fn is_recorded(&self) -> bool {
        self.kept == self.heads.len()
    }

    /// How many of the body's items are facts.
    pub fn body_facts(&self) -> usize {
        let is_fact = |item: &&Item| matches!(item, Item::Fact { .. });
        self.body.iter().filter(is_fact).count()
    }
}

impl Table {
    /// The arity of a symbol, or nothing if it is undeclared.
    pub fn arity(&self, symbol: Symbol) -> Option<usize> {
        self.arities.get(symbol.index()).copied()
    }

    /// The rule of a number.
    pub fn rule(&self, number: RuleNumber) -> &Rule {
        &self.rules[number.index()]
    }
}
