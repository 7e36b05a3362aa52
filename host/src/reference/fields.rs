//! The fields of table records; nothing is the answer to a bad field (20).

use super::numbers::{Comparator, Operation};
use super::table::{Expression, Guard, Head, Item, Slot, Table, Variable};
use crate::format::{EXPRESSION_LEN, PLACES, SLOT_LEN, VARIABLES};
use crate::names::Symbol;

/// The arity of a symbol record's body.
pub fn arity(body: &[u8]) -> Option<usize> {
    let arity = usize::from(body[0]);
    (arity <= PLACES).then_some(arity)
}

/// A head: a declared symbol, then four slots.
pub fn head(body: &[u8], table: &Table) -> Option<Head> {
    let symbol = Symbol(body[0]);
    let slots = places(&body[1..], SLOT_LEN, table.arity(symbol)?, used_slot)?;
    Some(Head { symbol, slots })
}

/// A guard: a comparator, then two expressions.
pub fn guard(body: &[u8]) -> Option<Guard> {
    Some(Guard {
        comparator: Comparator::from_byte(body[0])?,
        left: expression(&body[1..][..EXPRESSION_LEN])?,
        right: expression(&body[1 + EXPRESSION_LEN..])?,
    })
}

/// A body fact: a declared symbol, then four expressions.
pub fn body_fact(body: &[u8], table: &Table) -> Option<Item> {
    let symbol = Symbol(body[0]);
    let arity = table.arity(symbol)?;
    let arguments = places(&body[1..], EXPRESSION_LEN, arity, expression)?;
    Some(Item::Fact { symbol, arguments })
}

/// The first `arity` places, each `width` bytes long; each later place is zero in every byte.
fn places<T>(
    bytes: &[u8],
    width: usize,
    arity: usize,
    read: fn(&[u8]) -> Option<T>,
) -> Option<Vec<T>> {
    let (used, later) = bytes.split_at(arity * width);
    if !all_zero(later) {
        return None;
    }
    used.chunks(width).map(read).collect()
}

/// An expression: an operation and two slots; operation 0 leaves the second unused.
fn expression(bytes: &[u8]) -> Option<Expression> {
    let (first, second) = bytes[1..].split_at(SLOT_LEN);
    if bytes[0] == 0 {
        let alone = Expression::Alone(used_slot(first)?);
        return all_zero(second).then_some(alone);
    }
    let operation = Operation::from_byte(bytes[0])?;
    Some(Expression::Of(
        operation,
        used_slot(first)?,
        used_slot(second)?,
    ))
}

/// A slot that must be used: a constant, or a variable 0..15.
fn used_slot(bytes: &[u8]) -> Option<Slot> {
    let value = i32::from_le_bytes([bytes[1], bytes[2], bytes[3], bytes[4]]);
    match bytes[0] {
        1 => Some(Slot::Constant(value)),
        2 if (0..VARIABLES as i32).contains(&value) => Some(Slot::Variable(Variable(value as u8))),
        _ => None,
    }
}

/// Whether every byte is zero.
pub fn all_zero(bytes: &[u8]) -> bool {
    bytes.iter().all(|byte| *byte == 0)
}
