//! What is run: tables and goals of the size that a gateway has, and some that grow.

use crate::build::{
    alone, constant, goal, of, table, table_a, variable, Rule, AT_MOST, LESS, PRODUCT, SUM,
};

/// A table and a goal with a name.
pub struct Load {
    pub name: String,
    pub table: Vec<u8>,
    pub goal: Vec<u8>,
    pub old_answer: OldAnswer,
}

/// What an older library has to give for a load.
#[derive(Clone, Copy, Debug, PartialEq, Eq)]
pub enum OldAnswer {
    /// The same as the new one; otherwise it did other work.
    Same,
    /// Something else at times: it may cut quotients of numbers below zero toward zero.
    MayDiffer,
}

/// Readings of a cycle.
pub const READINGS: i32 = 64;

/// What a gateway runs in a cycle: 64 readings, with rules of two, three and four heads. Before
/// them a call with none, which shows what each call takes whatever it runs.
pub fn cycles() -> Vec<Load> {
    let mut loads: Vec<Load> = [1, 4, 16, 64].map(lowest).into();
    loads.insert(0, nothing());
    loads.push(middle());
    loads.push(four_wheels());
    loads
}

/// Table A with no readings.
fn nothing() -> Load {
    Load {
        name: "table A, no readings".to_string(),
        table: table_a(),
        goal: Vec::new(),
        old_answer: OldAnswer::Same,
    }
}

/// Table A with 64 readings on so many segments.
fn lowest(segments: i32) -> Load {
    Load {
        name: format!("table A, {}", on(segments)),
        table: table_a(),
        goal: readings(|reading| (0, [reading % segments, friction(reading)])),
        old_answer: OldAnswer::Same,
    }
}

fn on(segments: i32) -> String {
    format!("64 readings on {}", counted(segments as u32, "segment"))
}

/// So many of a sort, in words.
fn counted(count: u32, one: &str) -> String {
    format!("{} {}{}", count, one, if count == 1 { "" } else { "s" })
}

/// Three heads: of three readings on a segment the middle one is kept.
fn middle() -> Load {
    let [s, a, b, c] = [0, 1, 2, 3].map(variable);
    let rule = Rule::new()
        .keep(0, &[s, b])
        .remove(0, &[s, a])
        .remove(0, &[s, c])
        .guard(alone(a), AT_MOST, alone(b))
        .guard(alone(b), AT_MOST, alone(c));
    Load {
        name: format!("three heads, {}", on(4)),
        table: table(&[2], &[rule]),
        goal: readings(|reading| (0, [reading % 4, friction(reading)])),
        old_answer: OldAnswer::Same,
    }
}

/// Four heads: the readings of the four wheels on a segment become one, a weighted sum of two.
fn four_wheels() -> Load {
    let [s, a, b, c, d] = [0, 1, 2, 3, 4].map(variable);
    let meet = Rule::new()
        .remove(0, &[s, a])
        .remove(1, &[s, b])
        .remove(2, &[s, c])
        .remove(3, &[s, d])
        .guard(of(SUM, a, b), LESS, of(SUM, c, d))
        .add(4, &[alone(s), of(PRODUCT, a, constant(2))])
        .add(5, &[alone(s), of(SUM, c, d)]);
    Load {
        name: "four heads, 64 readings of four wheels on 16 segments".to_string(),
        table: table(&[2; 6], &[meet]),
        goal: readings(|reading| ((reading % 4) as u8, [reading / 4, friction(reading)])),
        old_answer: OldAnswer::Same,
    }
}

/// Frictions without an order: the lowest so far stands for a while, then falls.
pub fn friction(reading: i32) -> i32 {
    200 + reading * 7919 % 601
}

/// A goal of 64 facts with as many arguments each.
pub fn readings<const ARITY: usize>(reading: impl Fn(i32) -> (u8, [i32; ARITY])) -> Vec<u8> {
    facts(READINGS, reading)
}

fn facts<const ARITY: usize>(count: i32, fact: impl Fn(i32) -> (u8, [i32; ARITY])) -> Vec<u8> {
    let facts: Vec<(u8, [i32; ARITY])> = (0..count).map(fact).collect();
    let facts: Vec<(u8, &[i32])> = facts.iter().map(|(s, a)| (*s, &a[..])).collect();
    goal(&facts)
}

/// So many stored facts h(0,1), h(1,2), .. and a rule of so many heads h(X0,X1), h(X1,X2), .. that
/// never fires: each search goes over the whole store. Each goal fact becomes two of the stored
/// ones, so that there can be more than a goal has.
pub fn chain(heads: u32, stored: i32) -> Load {
    let half = constant(stored / 2);
    let [x, y] = [0, 1].map(variable);
    let two = Rule::new()
        .remove(1, &[x, y])
        .add(0, &[alone(x), alone(y)])
        .add(0, &[of(SUM, x, half), of(SUM, y, half)]);
    Load {
        name: format!("{}, {} facts stored", counted(heads, "head"), stored),
        table: table(&[2, 2], &[two, linked(heads)]),
        goal: facts(stored / 2, |at| (1, [at, at + 1])),
        old_answer: OldAnswer::Same,
    }
}

/// The heads of a chain; the guard is never true of the facts that are stored.
fn linked(heads: u32) -> Rule {
    let head = |k: u32| [variable(k), variable(k + 1)];
    let kept = (0..heads - 1).fold(Rule::new(), |rule, k| rule.keep(0, &head(k)));
    let far = of(SUM, variable(0), constant(1_000_000));
    kept.remove(0, &head(heads - 1))
        .guard(far, LESS, alone(variable(heads)))
}
