//! The rules of a table, decoded into fixed room as the table is read.

use super::decode::{read, Sink, Symbols};
use super::expression::{Expression, Slot};
use crate::format::{KEPT, MAX_GUARDS, MAX_HEADS, MAX_ITEMS, PLACES};
use crate::outcome::Refusal;

/// A head: slots behind the arity are unused.
#[derive(Clone, Copy, Default)]
pub struct Head {
    pub symbol: u8,
    pub slots: [Slot; PLACES],
}

/// A guard comparison.
#[derive(Clone, Copy, Default)]
pub struct Guard {
    pub comparator: u8,
    pub left: Expression,
    pub right: Expression,
}

/// A body item; a fail has no symbol.
#[derive(Clone, Copy, Default)]
pub struct Item {
    pub is_fail: bool,
    pub symbol: u8,
    pub arity: u8,
    pub arguments: [Expression; PLACES],
}

/// A rule in fixed room.
#[derive(Clone, Copy, Default)]
pub struct Rule {
    pub heads: [Head; MAX_HEADS],
    pub guards: [Guard; MAX_GUARDS],
    pub items: [Item; MAX_ITEMS],
    pub head_count: usize,
    pub kept_count: usize,
    pub guard_count: usize,
    pub item_count: usize,
}

/// A decoded table.
pub struct Table {
    pub symbols: Symbols,
    pub rules: Vec<Rule>,
}

impl Table {
    /// Reads and decodes a table.
    pub fn read(bytes: &[u8]) -> Result<Table, Refusal> {
        let mut rules = Vec::new();
        let symbols = read(bytes, &mut rules)?;
        Ok(Table { symbols, rules })
    }
}

/// The rule that is being read.
fn last(rules: &mut [Rule]) -> &mut Rule {
    rules.last_mut().expect("order was tested")
}

impl Sink for Vec<Rule> {
    fn rule(&mut self) {
        self.push(Rule::default());
    }

    fn head(&mut self, kind: u8, symbol: u8) {
        let rule = last(self);
        rule.heads[rule.head_count].symbol = symbol;
        rule.head_count += 1;
        rule.kept_count += usize::from(kind == KEPT);
    }

    fn slot(&mut self, place: usize, slot: Slot) {
        let rule = last(self);
        rule.heads[rule.head_count - 1].slots[place] = slot;
    }

    fn guard(&mut self, comparator: u8, left: Expression, right: Expression) {
        let rule = last(self);
        rule.guards[rule.guard_count] = Guard {
            comparator,
            left,
            right,
        };
        rule.guard_count += 1;
    }

    fn fact(&mut self, symbol: u8, arity: usize) {
        let rule = last(self);
        let item = &mut rule.items[rule.item_count];
        item.symbol = symbol;
        item.arity = arity as u8;
        rule.item_count += 1;
    }

    fn argument(&mut self, place: usize, argument: Expression) {
        let rule = last(self);
        rule.items[rule.item_count - 1].arguments[place] = argument;
    }

    fn fail(&mut self) {
        let rule = last(self);
        rule.items[rule.item_count].is_fail = true;
        rule.item_count += 1;
    }
}
