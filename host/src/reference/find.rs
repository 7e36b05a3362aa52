//! Looking for weights with which every rule of a table loses weight.
//!
//! All weights begin at 1. While a rule does not lose weight, the first such rule has the symbol of
//! its first removed head raised by what the rule lacks. Weights only rise and none passes 255, so
//! the search ends: every rule loses weight, or one does not and cannot be raised.

use super::check;
use super::table::{Rule, Table};
use super::weigh::{body_weight, loses_weight, removed_weight, weight_of};
use crate::names::Symbol;
use crate::outcome::{Outcome, Refusal};

/// Looks for weights, one byte for each symbol; tests table, 40, 42. Only for 0 the buffer is
/// written.
pub fn find_weights(table: &[u8], buffer: &mut [u8]) -> Outcome {
    match find_read(table, buffer.len()) {
        Ok(weights) => {
            buffer.copy_from_slice(&weights);
            Outcome::GOOD
        }
        Err(refusal) => refusal.into(),
    }
}

/// The weights found, or the first refusal.
fn find_read(table: &[u8], wanted: usize) -> Result<Vec<u8>, Refusal> {
    let table = check::read(table)?;
    if wanted != table.arities.len() {
        return Err(Refusal::at(40, 0));
    }
    search(&table).map_err(|rule| Refusal::at(42, rule))
}

/// The weights at which the search ends, or the rule that it cannot raise.
fn search(table: &Table) -> Result<Vec<u8>, usize> {
    let mut weights = vec![1; table.arities.len()];
    let heavy = |weights: &[u8]| {
        let mut rules = table.rules.iter();
        rules.position(|rule| !loses_weight(rule, weights))
    };
    while let Some(rule) = heavy(&weights) {
        let (symbol, weight) = raised(&table.rules[rule], &weights).ok_or(rule)?;
        weights[symbol.index()] = weight;
    }
    Ok(weights)
}

/// The symbol that a rule has raised, and to what: nothing where the rule removes nothing, or the
/// weight would pass a byte.
fn raised(rule: &Rule, weights: &[u8]) -> Option<(Symbol, u8)> {
    let symbol = rule.heads.get(rule.kept)?.symbol;
    let lack = body_weight(rule, weights) + 1 - removed_weight(rule, weights);
    let weight = u8::try_from(weight_of(symbol, weights) + lack).ok()?;
    Some((symbol, weight))
}
