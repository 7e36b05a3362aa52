//! A table's bytes. Nothing is tested here: a symbol may be undeclared, or have more or fewer
//! places than its arity.

use crate::format::{
    BODY_FACT, BODY_FAIL, END, EXPRESSION_LEN, GUARD, KEPT, PLACES, REMOVED, RULE, SLOT_LEN, SYMBOL,
};
use crate::names::Symbol;
use crate::reference::table::{Expression, Guard, Item, Rule, Slot, Table, Variable};

/// A table's records, the end record last.
pub fn table(table: &Table) -> Vec<u8> {
    let mut bytes = Vec::new();
    for arity in &table.arities {
        bytes.extend([SYMBOL, *arity as u8]);
    }
    for one in &table.rules {
        bytes.extend(rule(one));
    }
    bytes.push(END);
    bytes
}

fn rule(rule: &Rule) -> Vec<u8> {
    let mut bytes = vec![RULE];
    for (at, head) in rule.heads.iter().enumerate() {
        let kind = if rule.removes(at) { REMOVED } else { KEPT };
        let slots = head.slots.iter().map(slot).collect();
        bytes.extend(fact(kind, head.symbol, slots, SLOT_LEN));
    }
    bytes.extend(rule.guards.iter().flat_map(guard));
    bytes.extend(rule.body.iter().flat_map(item));
    bytes
}

/// A kind, a symbol and four places of this width; each later place is zero in every byte.
fn fact(kind: u8, symbol: Symbol, used: Vec<Vec<u8>>, width: usize) -> Vec<u8> {
    let mut bytes = vec![kind, symbol.0];
    bytes.extend(used.concat());
    bytes.resize(2 + PLACES * width, 0);
    bytes
}

fn guard(guard: &Guard) -> Vec<u8> {
    let mut bytes = vec![GUARD, guard.comparator.byte()];
    bytes.extend(expression(&guard.left));
    bytes.extend(expression(&guard.right));
    bytes
}

fn item(item: &Item) -> Vec<u8> {
    match item {
        Item::Fail => vec![BODY_FAIL],
        Item::Fact { symbol, arguments } => {
            let arguments = arguments.iter().map(expression).collect();
            fact(BODY_FACT, *symbol, arguments, EXPRESSION_LEN)
        }
    }
}

/// An operation and two slots; 0 for the first slot alone, and the second is then unused.
fn expression(expression: &Expression) -> Vec<u8> {
    match expression {
        Expression::Alone(first) => [vec![0], slot(first), vec![0; SLOT_LEN]].concat(),
        Expression::Of(operation, first, second) => {
            [vec![operation.byte()], slot(first), slot(second)].concat()
        }
    }
}

/// A tag and four value bytes.
fn slot(slot: &Slot) -> Vec<u8> {
    let (tag, value) = match *slot {
        Slot::Constant(value) => (1, value),
        Slot::Variable(Variable(number)) => (2, i32::from(number)),
    };
    [vec![tag], value.to_le_bytes().to_vec()].concat()
}
