//! The printer: a good table as text, a line for each declaration and each rule.

use super::marks::{of_comparator, of_operation};
use crate::names::Symbol;
use crate::outcome::{Refusal, Written};
use crate::reference::check;
use crate::reference::table::{Expression, Guard, Head, Item, Rule, Slot, Table, Variable};

/// Prints a table; tests the table, then 51. Only for 0 the room is written, from its start.
pub fn print_text(table: &[u8], room: &mut [u8]) -> Written {
    match fitting_text(table, room.len()) {
        Ok(text) => Written::to(room, text.as_bytes()),
        Err(refusal) => refusal.into(),
    }
}

/// The text of a good table, if there is room for it.
fn fitting_text(table: &[u8], room: usize) -> Result<String, Refusal> {
    let text = text(&check::read(table)?);
    if text.len() > room {
        return Err(Refusal::at(51, 0));
    }
    Ok(text)
}

/// A good table's text.
pub fn text(table: &Table) -> String {
    let numbered = table.arities.iter().enumerate();
    let declarations = numbered.map(|(symbol, arity)| format!("s{}/{}.\n", symbol, arity));
    declarations.chain(table.rules.iter().map(rule)).collect()
}

/// A rule's line.
pub fn rule(rule: &Rule) -> String {
    let guards = match rule.guards.is_empty() {
        true => String::new(),
        false => format!("{} | ", listed(&rule.guards, comparison)),
    };
    let body = match rule.body.is_empty() {
        true => "true".to_string(),
        false => listed(&rule.body, item),
    };
    format!("{} {}{}.\n", heads(rule), guards, body)
}

/// The heads of a rule and its arrow.
fn heads(rule: &Rule) -> String {
    let (kept, removed) = rule.heads.split_at(rule.kept);
    let [kept_heads, removed_heads] = [kept, removed].map(|heads| listed(heads, head));
    if kept.is_empty() {
        format!("{} <=>", removed_heads)
    } else if removed.is_empty() {
        format!("{} ==>", kept_heads)
    } else {
        format!("{} \\ {} <=>", kept_heads, removed_heads)
    }
}

fn head(head: &Head) -> String {
    fact(head.symbol, &listed(&head.slots, slot))
}

fn item(item: &Item) -> String {
    match item {
        Item::Fail => "fail".to_string(),
        Item::Fact { symbol, arguments } => fact(*symbol, &listed(arguments, expression)),
    }
}

/// A symbol, and its arguments between parentheses if it has any.
fn fact(symbol: Symbol, arguments: &str) -> String {
    match arguments {
        "" => format!("s{}", symbol.0),
        _ => format!("s{}({})", symbol.0, arguments),
    }
}

fn comparison(guard: &Guard) -> String {
    let [left, right] = [&guard.left, &guard.right].map(expression);
    format!("{} {} {}", left, of_comparator(guard.comparator), right)
}

fn expression(expression: &Expression) -> String {
    match expression {
        Expression::Alone(first) => slot(first),
        Expression::Of(operation, first, second) => {
            format!(
                "{} {} {}",
                slot(first),
                of_operation(*operation),
                slot(second)
            )
        }
    }
}

fn slot(one: &Slot) -> String {
    match one {
        Slot::Constant(value) => value.to_string(),
        Slot::Variable(Variable(number)) => format!("V{}", number),
    }
}

/// Each of these, with commas between them.
fn listed<T>(all: &[T], one: fn(&T) -> String) -> String {
    all.iter().map(one).collect::<Vec<_>>().join(", ")
}
