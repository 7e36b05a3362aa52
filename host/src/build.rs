//! Tables and goals in readable form, for tests and examples. Nothing is checked here, so that
//! bad tables can be written too.

use crate::format::{
    BODY_FACT, BODY_FAIL, END, EXPRESSION_LEN, GOAL_FACT, GUARD, KEPT, PLACES, REMOVED, RULE,
    SLOT_LEN, SYMBOL,
};

/// A slot's bytes.
pub type Slot = [u8; SLOT_LEN];
/// An expression's bytes.
pub type Expression = [u8; EXPRESSION_LEN];

/// Operation bytes.
pub const SUM: u8 = 1;
pub const DIFFERENCE: u8 = 2;
pub const PRODUCT: u8 = 3;
pub const QUOTIENT: u8 = 4;
pub const REMAINDER: u8 = 5;

/// Comparator bytes.
pub const EQUAL: u8 = 0;
pub const UNEQUAL: u8 = 1;
pub const LESS: u8 = 2;
pub const AT_MOST: u8 = 3;
pub const GREATER: u8 = 4;
pub const AT_LEAST: u8 = 5;

/// A constant.
pub fn constant(value: i32) -> Slot {
    tagged(1, value.to_le_bytes())
}

/// A variable.
pub fn variable(number: u32) -> Slot {
    tagged(2, number.to_le_bytes())
}

fn tagged(tag: u8, value: [u8; 4]) -> Slot {
    [tag, value[0], value[1], value[2], value[3]]
}

/// An expression of one slot alone.
pub fn alone(slot: Slot) -> Expression {
    of(0, slot, [0; SLOT_LEN])
}

/// An operation on two slots.
pub fn of(operation: u8, first: Slot, second: Slot) -> Expression {
    let mut bytes = [operation; EXPRESSION_LEN];
    bytes[1..=SLOT_LEN].copy_from_slice(&first);
    bytes[1 + SLOT_LEN..].copy_from_slice(&second);
    bytes
}

/// A rule's records, kept by part so that they come out in the right order.
#[derive(Clone, Debug, Default)]
pub struct Rule {
    pub kept: Vec<Vec<u8>>,
    pub removed: Vec<Vec<u8>>,
    pub guards: Vec<Vec<u8>>,
    pub body: Vec<Vec<u8>>,
}

impl Rule {
    /// A rule with nothing in it yet.
    pub fn new() -> Rule {
        Rule::default()
    }

    /// One more kept head.
    pub fn keep(mut self, symbol: u8, slots: &[Slot]) -> Rule {
        self.kept.push(fact_record(KEPT, symbol, slots));
        self
    }

    /// One more removed head.
    pub fn remove(mut self, symbol: u8, slots: &[Slot]) -> Rule {
        self.removed.push(fact_record(REMOVED, symbol, slots));
        self
    }

    /// One more guard comparison.
    pub fn guard(mut self, left: Expression, comparator: u8, right: Expression) -> Rule {
        let mut record = vec![GUARD, comparator];
        record.extend(left);
        record.extend(right);
        self.guards.push(record);
        self
    }

    /// One more body fact.
    pub fn add(mut self, symbol: u8, arguments: &[Expression]) -> Rule {
        self.body.push(fact_record(BODY_FACT, symbol, arguments));
        self
    }

    /// One more body fail.
    pub fn fail(mut self) -> Rule {
        self.body.push(vec![BODY_FAIL]);
        self
    }

    /// The rule's records in their order, the rule record first.
    pub fn records(&self) -> Vec<Vec<u8>> {
        let mut records = vec![vec![RULE]];
        for part in [&self.kept, &self.removed, &self.guards, &self.body] {
            records.extend(part.iter().cloned());
        }
        records
    }
}

/// A kind, a symbol, and four places of which the later ones are zero.
fn fact_record<const LEN: usize>(kind: u8, symbol: u8, used: &[[u8; LEN]]) -> Vec<u8> {
    let mut record = vec![kind, symbol];
    for place in used {
        record.extend(place);
    }
    record.resize(2 + PLACES * LEN, 0);
    record
}

/// A table's records: symbols of these arities, then the rules, then the end record.
pub fn records(arities: &[u8], rules: &[Rule]) -> Vec<Vec<u8>> {
    let symbols = arities.iter().map(|arity| vec![SYMBOL, *arity]);
    let rules = rules.iter().flat_map(Rule::records);
    symbols.chain(rules).chain([vec![END]]).collect()
}

/// A table's bytes.
pub fn table(arities: &[u8], rules: &[Rule]) -> Vec<u8> {
    records(arities, rules).concat()
}

/// A goal fact's bytes.
pub fn goal_fact(symbol: u8, arguments: &[i32]) -> Vec<u8> {
    let arguments: Vec<[u8; 4]> = arguments.iter().map(|a| a.to_le_bytes()).collect();
    fact_record(GOAL_FACT, symbol, &arguments)
}

/// A goal's bytes.
pub fn goal(facts: &[(u8, &[i32])]) -> Vec<u8> {
    let each = facts.iter().map(|(symbol, args)| goal_fact(*symbol, args));
    each.collect::<Vec<_>>().concat()
}

/// Table A of document 01: mu(S,A) \ mu(S,B) <=> A at most B | true.
pub fn table_a() -> Vec<u8> {
    let (s, a, b) = (variable(0), variable(1), variable(2));
    let rule = Rule::new()
        .keep(0, &[s, a])
        .remove(0, &[s, b])
        .guard(alone(a), AT_MOST, alone(b));
    table(&[2], &[rule])
}
