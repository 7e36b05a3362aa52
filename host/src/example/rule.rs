//! A rule: `kept \ removed <=> guards | body`, `removed <=> ..` or `kept ==> ..`.

use super::cursor::{Cursor, Value};
use super::{Declared, Error};
use crate::build::{
    alone, constant, of, variable, Expression, Rule, Slot, AT_LEAST, AT_MOST, DIFFERENCE, EQUAL,
    GREATER, LESS, PRODUCT, QUOTIENT, REMAINDER, SUM, UNEQUAL,
};
use crate::format::VARIABLES;
use crate::names::Symbol;

const OPERATIONS: [(&str, u8); 5] = [
    ("+", SUM),
    ("-", DIFFERENCE),
    ("*", PRODUCT),
    ("/", QUOTIENT),
    ("%", REMAINDER),
];

const COMPARATORS: [(&str, u8); 6] = [
    ("=", EQUAL),
    ("\\=", UNEQUAL),
    ("<", LESS),
    ("=<", AT_MOST),
    (">", GREATER),
    (">=", AT_LEAST),
];

/// What to do where an expression goes on.
const ONE_OPERATION: &str =
    "an expression is one operation on two values: for more use a helper fact";

/// Reads a rule; a name before it, with `@` behind, is for the reader alone.
pub fn rule(cursor: &mut Cursor, symbols: &[Declared]) -> Result<Rule, Error> {
    if cursor.second_is("@") {
        cursor.name()?;
        cursor.expect("@")?;
    }
    let mut reader = RuleReader {
        cursor,
        symbols,
        variables: Vec::new(),
    };
    let rule = reader.heads()?;
    let rule = reader.guards(rule)?;
    let rule = reader.body(rule)?;
    if cursor.peek_is("|") {
        return Err(cursor.error("before '|' stand comparisons alone; without any leave it out"));
    }
    Ok(rule)
}

/// A rule that is being read, and the names of its variables in the order of their numbers.
struct RuleReader<'a> {
    cursor: &'a mut Cursor,
    symbols: &'a [Declared],
    variables: Vec<String>,
}

impl RuleReader<'_> {
    /// The heads and the arrow.
    fn heads(&mut self) -> Result<Rule, Error> {
        let first = self.head_list()?;
        if self.cursor.take("\\") {
            let removed = self.head_list()?;
            self.cursor.expect("<=>")?;
            return Ok(with_heads(&first, &removed));
        }
        if self.cursor.take("==>") {
            return Ok(with_heads(&first, &[]));
        }
        if self.cursor.take("<=>") {
            return Ok(with_heads(&[], &first));
        }
        Err(self.cursor.expected("an arrow, '<=>' or '==>'"))
    }

    fn head_list(&mut self) -> Result<Vec<(Symbol, Vec<Slot>)>, Error> {
        let (symbols, variables) = (self.symbols, &mut self.variables);
        let mut slot = |cursor: &mut Cursor| head_slot(cursor, variables);
        self.cursor.list(|cursor| cursor.fact(symbols, &mut slot))
    }

    /// The guards: all that stands before a `|`. A body begins with a name, a guard does not.
    fn guards(&mut self, mut rule: Rule) -> Result<Rule, Error> {
        self.expect_more()?;
        if self.cursor.peek_is_name() {
            return Ok(rule);
        }
        let variables = &self.variables;
        let guards = self.cursor.list(|cursor| {
            let left = expression(cursor, variables)?;
            let comparator = one_of(cursor, &COMPARATORS);
            let comparator = comparator.ok_or_else(|| cursor.expected("a comparator"))?;
            Ok((left, comparator, expression(cursor, variables)?))
        })?;
        self.expect_more()?;
        self.cursor.expect("|")?;
        for (left, comparator, right) in guards {
            rule = rule.guard(left, comparator, right);
        }
        Ok(rule)
    }

    /// The body: `true`, or facts and fails.
    fn body(&mut self, mut rule: Rule) -> Result<Rule, Error> {
        self.expect_more()?;
        if self.cursor.take_name("true") {
            return Ok(rule);
        }
        let (symbols, variables) = (self.symbols, &self.variables);
        let items = self.cursor.list(|cursor| {
            if cursor.take_name("fail") {
                return Ok(None);
            }
            let fact = cursor.fact(symbols, |cursor| expression(cursor, variables));
            fact.map(Some)
        })?;
        for item in items {
            rule = match item {
                Some((symbol, arguments)) => rule.add(symbol.0, &arguments),
                None => rule.fail(),
            };
        }
        Ok(rule)
    }

    /// The error that a rule ends here, before its body.
    fn expect_more(&self) -> Result<(), Error> {
        if self.cursor.peek_is(".") {
            let message = "a rule needs a body, behind '|' if it has guards: 'true' for none";
            return Err(self.cursor.error(message));
        }
        Ok(())
    }
}

/// A rule with these heads and nothing else.
fn with_heads(kept: &[(Symbol, Vec<Slot>)], removed: &[(Symbol, Vec<Slot>)]) -> Rule {
    let mut rule = Rule::new();
    for (symbol, slots) in kept {
        rule = rule.keep(symbol.0, slots);
    }
    for (symbol, slots) in removed {
        rule = rule.remove(symbol.0, slots);
    }
    rule
}

/// A slot of a head: a constant, or a variable, which gets the next number where it is new.
fn head_slot(cursor: &mut Cursor, variables: &mut Vec<String>) -> Result<Slot, Error> {
    let place = cursor.place();
    let slot = match cursor.value()? {
        Value::Number(value) => constant(value),
        Value::Variable(name) => head_variable(name, variables).ok_or(Error {
            place,
            message: format!("a rule has at most {} variables", VARIABLES),
        })?,
    };
    if peek_is_operation(cursor) {
        return Err(cursor.error("a head has no operations: compare in a guard"));
    }
    Ok(slot)
}

/// A variable of the heads by its name, or nothing if it is one too many.
fn head_variable(name: String, variables: &mut Vec<String>) -> Option<Slot> {
    let known = variables.iter().position(|variable| *variable == name);
    if known.is_none() && variables.len() == VARIABLES {
        return None;
    }
    if known.is_none() {
        variables.push(name);
    }
    Some(variable(known.unwrap_or(variables.len() - 1) as u32))
}

/// A slot of a guard or body: a constant, or a variable of the heads.
fn bound_slot(cursor: &mut Cursor, variables: &[String]) -> Result<Slot, Error> {
    if cursor.peek_is("(") {
        return Err(cursor.error(ONE_OPERATION));
    }
    let place = cursor.place();
    let name = match cursor.value()? {
        Value::Number(value) => return Ok(constant(value)),
        Value::Variable(name) => name,
    };
    let known = variables.iter().position(|variable| *variable == name);
    known.map(|number| variable(number as u32)).ok_or(Error {
        place,
        message: format!("{} stands in no head", name),
    })
}

/// A slot alone, or one operation on two.
fn expression(cursor: &mut Cursor, variables: &[String]) -> Result<Expression, Error> {
    let first = bound_slot(cursor, variables)?;
    let expression = match one_of(cursor, &OPERATIONS) {
        Some(operation) => of(operation, first, bound_slot(cursor, variables)?),
        None => alone(first),
    };
    if peek_is_operation(cursor) {
        return Err(cursor.error(ONE_OPERATION));
    }
    Ok(expression)
}

/// Whether the next word is an operation's mark.
fn peek_is_operation(cursor: &Cursor) -> bool {
    OPERATIONS.iter().any(|(mark, _)| cursor.peek_is(mark))
}

/// Takes one of these marks: its byte.
fn one_of(cursor: &mut Cursor, marks: &[(&str, u8)]) -> Option<u8> {
    let found = marks.iter().find(|(mark, _)| cursor.take(mark));
    found.map(|(_, byte)| *byte)
}
