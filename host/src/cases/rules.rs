//! Random rules over given symbols, with small constants so that facts match.

use super::random::Random;
use crate::build::{alone, constant, of, variable, Expression, Rule, Slot};

/// What a random rule is made of.
#[derive(Clone, Copy, Debug)]
pub struct RulePlan {
    pub kept: usize,
    pub removed: usize,
    pub guards: usize,
    pub items: usize,
    /// Percent of body items that are fails.
    pub fails: u64,
}

/// A rule over symbols of these arities.
pub fn rule(random: &mut Random, arities: &[u8], plan: RulePlan) -> Rule {
    let mut bound = Vec::new();
    let mut rule = Rule::new();
    for _ in 0..plan.kept {
        let (symbol, slots) = head(random, arities, &mut bound);
        rule = rule.keep(symbol, &slots);
    }
    for _ in 0..plan.removed {
        let (symbol, slots) = head(random, arities, &mut bound);
        rule = rule.remove(symbol, &slots);
    }
    for _ in 0..plan.guards {
        let comparator = random.below(6) as u8;
        let left = expression(random, &bound);
        rule = rule.guard(left, comparator, expression(random, &bound));
    }
    for _ in 0..plan.items {
        rule = if random.chance(plan.fails) {
            rule.fail()
        } else {
            let symbol = any_symbol(random, arities);
            let arguments = arguments(random, arities, symbol, &bound);
            rule.add(symbol, &arguments)
        };
    }
    rule
}

/// A symbol; low ones come more often, so that rules meet.
pub fn any_symbol(random: &mut Random, arities: &[u8]) -> u8 {
    let among = random.between(1, arities.len());
    random.below(among as u64) as u8
}

/// A head: variables out of a small pool, repeated ones often, and constants.
fn head(random: &mut Random, arities: &[u8], bound: &mut Vec<u32>) -> (u8, Vec<Slot>) {
    let symbol = any_symbol(random, arities);
    let arity = arities[usize::from(symbol)];
    let slots = (0..arity).map(|_| head_slot(random, bound)).collect();
    (symbol, slots)
}

fn head_slot(random: &mut Random, bound: &mut Vec<u32>) -> Slot {
    if random.chance(15) {
        return constant(small(random));
    }
    let number = match random.below(10) {
        0 => random.up_to(15),
        1..=3 => random.up_to(1),
        _ => bound.len().min(14) as u32,
    };
    if !bound.contains(&number) {
        bound.push(number);
    }
    variable(number)
}

/// Expressions for all arguments of a body fact.
pub fn arguments(
    random: &mut Random,
    arities: &[u8],
    symbol: u8,
    bound: &[u32],
) -> Vec<Expression> {
    let arity = arities[usize::from(symbol)];
    (0..arity).map(|_| expression(random, bound)).collect()
}

/// An expression over bound variables and constants.
fn expression(random: &mut Random, bound: &[u32]) -> Expression {
    let first = slot(random, bound);
    if random.chance(55) {
        return alone(first);
    }
    let operation = random.between(1, 5) as u8;
    of(operation, first, slot(random, bound))
}

fn slot(random: &mut Random, bound: &[u32]) -> Slot {
    if bound.is_empty() || random.chance(30) {
        constant(number(random))
    } else {
        variable(*random.pick(bound))
    }
}

/// A number from -1 to 3.
pub fn small(random: &mut Random) -> i32 {
    random.below(5) as i32 - 1
}

/// Mostly a small number, at times one near the ends of the range.
pub fn number(random: &mut Random) -> i32 {
    match random.below(40) {
        0 => i32::MIN,
        1 => i32::MAX,
        2 => random.bits() as i32,
        3 => 1 << random.below(31),
        4 => i32::MIN + 1,
        _ => small(random),
    }
}
