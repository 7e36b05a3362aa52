//! A table is read record by record, each tested in the order 16, 17, 18, 21, 19, 20, 22.

use super::fields;
use super::table::{Expression, Guard, Head, Item, Rule, Table, Variable};
use crate::format::{
    body_len, BODY_FACT, BODY_FAIL, END, GUARD, KEPT, MAX_GUARDS, MAX_HEADS, MAX_ITEMS, MAX_RULES,
    MAX_SYMBOLS, REMOVED, RULE, SYMBOL,
};
use crate::outcome::{Outcome, Refusal};

/// Checks a table: zeros if it is good, else the refusal's number and place.
pub fn check(bytes: &[u8]) -> Outcome {
    match read(bytes) {
        Ok(_) => Outcome::GOOD,
        Err(refusal) => refusal.into(),
    }
}

/// Reads a table, up to its last byte.
pub fn read(bytes: &[u8]) -> Result<Table, Refusal> {
    let mut reader = Reader::new();
    let mut offset = 0;
    loop {
        if offset == bytes.len() {
            return Err(Refusal::at(17, offset));
        }
        let refused = |number| Refusal::at(number, offset);
        let (record, len) = reader.test(&bytes[offset..]).map_err(refused)?;
        offset += len;
        if record == Record::End {
            break;
        }
        reader.take(record);
    }
    if offset < bytes.len() {
        return Err(Refusal::at(23, offset));
    }
    Ok(reader.table)
}

/// A decoded record.
#[derive(Debug, PartialEq)]
enum Record {
    Symbol(usize),
    Rule,
    Kept(Head),
    Removed(Head),
    Guard(Guard),
    Item(Item),
    End,
}

/// How far the records have come: symbols, then inside a rule its parts in their order.
#[derive(Clone, Copy, Debug, PartialEq, PartialOrd)]
enum Part {
    Symbols,
    Kept,
    Removed,
    Guards,
    Body,
}

/// The table read so far.
struct Reader {
    table: Table,
    part: Part,
}

impl Reader {
    fn new() -> Reader {
        Reader {
            table: Table::default(),
            part: Part::Symbols,
        }
    }

    /// Tests the record that `bytes` begin with: the record and its length, or a number.
    fn test(&self, bytes: &[u8]) -> Result<(Record, usize), u32> {
        let kind = bytes[0];
        let len = 1 + body_len(kind).ok_or(16_u32)?;
        let body = bytes.get(1..len).ok_or(17_u32)?;
        require(self.in_order(kind), 18)?;
        require(!self.ends_headless_rule(kind), 21)?;
        require(self.has_room(kind), 19)?;
        let record = self.fields(kind, body).ok_or(20_u32)?;
        require(self.binds_variables(&record), 22)?;
        Ok((record, len))
    }

    /// Symbols before all rules; inside a rule kept heads, removed heads, guards, body items.
    fn in_order(&self, kind: u8) -> bool {
        let within_rule = |part| self.part != Part::Symbols && self.part <= part;
        match kind {
            SYMBOL => self.part == Part::Symbols,
            KEPT => within_rule(Part::Kept),
            REMOVED => within_rule(Part::Removed),
            GUARD => within_rule(Part::Guards),
            BODY_FACT | BODY_FAIL => within_rule(Part::Body),
            _ => true,
        }
    }

    /// Whether the record is a guard, body item, rule or end after a rule with no head.
    fn ends_headless_rule(&self, kind: u8) -> bool {
        let headless = self.rule().map_or(false, |rule| rule.heads.is_empty());
        headless && !matches!(kind, KEPT | REMOVED)
    }

    /// Whether one more of the record's sort is within the limits.
    fn has_room(&self, kind: u8) -> bool {
        let in_rule = |count: fn(&Rule) -> usize| self.rule().map_or(0, count);
        match kind {
            SYMBOL => self.table.arities.len() < MAX_SYMBOLS,
            RULE => self.table.rules.len() < MAX_RULES,
            KEPT | REMOVED => in_rule(|rule| rule.heads.len()) < MAX_HEADS,
            GUARD => in_rule(|rule| rule.guards.len()) < MAX_GUARDS,
            BODY_FACT | BODY_FAIL => in_rule(|rule| rule.body.len()) < MAX_ITEMS,
            _ => true,
        }
    }

    /// The record with its fields, or nothing if one is bad.
    fn fields(&self, kind: u8, body: &[u8]) -> Option<Record> {
        match kind {
            SYMBOL => fields::arity(body).map(Record::Symbol),
            RULE => Some(Record::Rule),
            KEPT => fields::head(body, &self.table).map(Record::Kept),
            REMOVED => fields::head(body, &self.table).map(Record::Removed),
            GUARD => fields::guard(body).map(Record::Guard),
            BODY_FACT => fields::body_fact(body, &self.table).map(Record::Item),
            BODY_FAIL => Some(Record::Item(Item::Fail)),
            END => Some(Record::End),
            _ => None,
        }
    }

    /// Whether every guard or body variable stands in a head of the same rule.
    fn binds_variables(&self, record: &Record) -> bool {
        let variables: Vec<Variable> = match record {
            Record::Guard(guard) => variables_of(&[guard.left, guard.right]),
            Record::Item(Item::Fact { arguments, .. }) => variables_of(arguments),
            _ => Vec::new(),
        };
        let bound = |variable| self.rule().map_or(false, |rule| rule.binds(variable));
        variables.into_iter().all(bound)
    }

    /// The rule that the records stand in.
    fn rule(&self) -> Option<&Rule> {
        self.table.rules.last()
    }

    /// Takes a tested record into the table.
    fn take(&mut self, record: Record) {
        match record {
            Record::Symbol(arity) => self.table.arities.push(arity),
            Record::Rule => {
                self.table.rules.push(Rule::default());
                self.part = Part::Kept;
            }
            Record::Kept(head) => {
                let rule = self.open(Part::Kept);
                rule.heads.push(head);
                rule.kept += 1;
            }
            Record::Removed(head) => self.open(Part::Removed).heads.push(head),
            Record::Guard(guard) => self.open(Part::Guards).guards.push(guard),
            Record::Item(item) => self.open(Part::Body).body.push(item),
            Record::End => {}
        }
    }

    /// Moves on to a part of the rule, and gives the rule to add to.
    fn open(&mut self, part: Part) -> &mut Rule {
        self.part = part;
        self.table.rules.last_mut().expect("order was tested")
    }
}

/// The variables of some expressions.
fn variables_of(expressions: &[Expression]) -> Vec<Variable> {
    expressions.iter().flat_map(Expression::variables).collect()
}

/// A test: the number unless it holds.
fn require(holds: bool, number: u32) -> Result<(), u32> {
    if holds {
        Ok(())
    } else {
        Err(number)
    }
}
