//! Weighing: a table whose every rule loses weight ends, and how soon.
//!
//! With G goal facts of weight W together, at most M occurrences of a symbol and at most B facts
//! in a body: each firing loses at least 1 of the weight, so there are at most W firings; each
//! adds at most B facts, so at most G + B·W facts are activated; each of these takes at most
//! one Activate, M Defaults and one Drop; and there is at most one Fail. So a run takes at most
//! (M + 2)·(G + B·W) + W + 1 steps.

use super::check;
use super::goal;
use super::occurrences::Occurrences;
use super::state::Fact;
use super::table::{Item, Rule, Table};
use crate::names::Symbol;
use crate::outcome::{Outcome, Refusal, Weighing};

/// Weighs a table and a goal; tests table, 40, 41, 42, then the goal.
pub fn weigh(table: &[u8], weights: &[u8], goal: &[u8]) -> Weighing {
    match weigh_read(table, weights, goal) {
        Ok((weight, bound)) => Weighing {
            outcome: Outcome::GOOD,
            weight: weight as u32,
            bound: bound as u32,
        },
        Err(refusal) => Weighing {
            outcome: refusal.into(),
            ..Weighing::default()
        },
    }
}

/// W and the step bound, or the first refusal.
fn weigh_read(table: &[u8], weights: &[u8], goal: &[u8]) -> Result<(u64, u64), Refusal> {
    let table = check::read(table)?;
    if weights.len() != table.arities.len() {
        return Err(Refusal::at(40, 0));
    }
    if let Some(symbol) = weights.iter().position(|weight| *weight == 0) {
        return Err(Refusal::at(41, symbol));
    }
    let mut rules = table.rules.iter();
    if let Some(rule) = rules.position(|rule| !loses_weight(rule, weights)) {
        return Err(Refusal::at(42, rule));
    }
    let goal = goal::read(goal, &table)?;
    let weight = goal_weight(&goal, weights);
    Ok((weight, step_bound(&table, &goal, weight)))
}

/// Whether a rule's removed heads weigh more than its body.
pub(super) fn loses_weight(rule: &Rule, weights: &[u8]) -> bool {
    removed_weight(rule, weights) > body_weight(rule, weights)
}

/// The weight of a symbol.
pub(super) fn weight_of(symbol: Symbol, weights: &[u8]) -> u64 {
    u64::from(weights[symbol.index()])
}

/// The weight of a rule's removed heads.
pub(super) fn removed_weight(rule: &Rule, weights: &[u8]) -> u64 {
    let removed = rule.heads[rule.kept..].iter();
    removed.map(|head| weight_of(head.symbol, weights)).sum()
}

/// The weight of a rule's body; a fail weighs nothing.
pub(super) fn body_weight(rule: &Rule, weights: &[u8]) -> u64 {
    let weight = |item: &Item| match item {
        Item::Fact { symbol, .. } => weight_of(*symbol, weights),
        Item::Fail => 0,
    };
    rule.body.iter().map(weight).sum()
}

/// W: the weight of all goal facts.
fn goal_weight(goal: &[Fact], weights: &[u8]) -> u64 {
    let each = goal.iter().map(|fact| weight_of(fact.symbol, weights));
    each.sum()
}

/// (M + 2)·(G + B·W) + W + 1.
fn step_bound(table: &Table, goal: &[Fact], weight: u64) -> u64 {
    let most_occurrences = Occurrences::of(table).most() as u64;
    let most_body_facts = table.rules.iter().map(Rule::body_facts).max();
    let most_body_facts = most_body_facts.unwrap_or(0) as u64;
    let activated = goal.len() as u64 + most_body_facts * weight;
    (most_occurrences + 2) * activated + weight + 1
}
