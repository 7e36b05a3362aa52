//! Loads with as many rules as a table can have: they show what it takes to find a symbol's heads
//! among them. So that the search does not hide it, no more than half of the heads that are found
//! match, and for each head of a match at most one partner fits.

use super::loads::{friction, readings, Load, OldAnswer};
use crate::build::{alone, constant, of, table, variable, Rule, AT_MOST, SUM};
use crate::format::{MAX_RULES, MAX_SYMBOLS};

/// The symbols of the table with many of them.
const SYMBOLS: i32 = MAX_SYMBOLS as i32;

/// One symbol with all heads, 256 of them, and 32 symbols with four heads each.
pub fn large() -> Vec<Load> {
    vec![segments(), sensors()]
}

/// As many rules as a table can have, each made from its number.
fn rules(rule: impl Fn(i32) -> Rule) -> Vec<Rule> {
    (0..MAX_RULES as i32).map(rule).collect()
}

/// A rule of four heads for each segment. Every fourth segment has readings, of all four wheels, and
/// they become one fact before those of the next come. So of the 256 heads that a reading can be
/// tried at it matches one, and few facts are stored.
fn segments() -> Load {
    Load {
        name: "64 rules, 256 heads of one symbol, 64 readings".to_string(),
        table: table(&[3, 3], &rules(wheels_of)),
        goal: readings(|reading| (0, [reading / 4 * 4 + 3, reading % 4, friction(reading)])),
        old_answer: OldAnswer::Same,
    }
}

/// mu(segment, 0, A), mu(segment, 1, B), mu(segment, 2, C), mu(segment, 3, D) <=>
/// axles(segment, A + B, C + D).
fn wheels_of(segment: i32) -> Rule {
    let [a, b, c, d] = [0, 1, 2, 3].map(variable);
    let segment = constant(segment);
    let wheel = |number, friction| [segment, constant(number), friction];
    Rule::new()
        .remove(0, &wheel(0, a))
        .remove(0, &wheel(1, b))
        .remove(0, &wheel(2, c))
        .remove(0, &wheel(3, d))
        .add(1, &[alone(segment), of(SUM, a, b), of(SUM, c, d)])
}

/// A symbol for each sensor, and on each of two segments a rule for each sensor and another one. Each
/// sensor reads both segments, and no two readings of a sensor come one behind the other.
fn sensors() -> Load {
    Load {
        name: "64 rules, 4 heads of each of 32 symbols, 64 readings".to_string(),
        table: table(&[2; MAX_SYMBOLS], &rules(pair)),
        goal: readings(|reading| {
            let sensor = (reading % SYMBOLS) as u8;
            (sensor, [reading / SYMBOLS, friction(reading)])
        }),
        old_answer: OldAnswer::Same,
    }
}

/// sensor(segment, A) \ other(segment, B) <=> A =< B | true: of two sensors the lower reading is
/// kept. A sensor's heads stand in four rules, two in each half of the table.
fn pair(rule: i32) -> Rule {
    let [a, b] = [0, 1].map(variable);
    let segment = constant(rule / SYMBOLS);
    let [sensor, other] = [rule, 5 * rule + 3].map(|number| (number % SYMBOLS) as u8);
    Rule::new()
        .keep(sensor, &[segment, a])
        .remove(other, &[segment, b])
        .guard(alone(a), AT_MOST, alone(b))
}
