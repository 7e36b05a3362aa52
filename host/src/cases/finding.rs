//! Tables to look for weights in: random ones with more and fewer rules that can lose weight, and
//! chains and rings, in which the search is longest.

use super::random::Random;
use super::rules::{rule, RulePlan};
use super::tables::{self, Style};
use super::{damage, edges, Case, Plan};
use crate::build::{table, Rule};
use crate::format::{MAX_RULES, MAX_SYMBOLS, SYMBOL};

/// A table with a buffer for its weights: now and then a damaged one, or a wrong length.
pub fn case(random: &mut Random) -> Case {
    let plan = plan(random);
    let mut table = plan.bytes();
    if random.chance(25) {
        table = damage::table(random, &plan);
    }
    let mut len = plan.arities.len();
    if random.chance(10) {
        len = *random.pick(&[0, len - 1, len + 1, 2 * len, MAX_SYMBOLS, 300]);
    }
    let buffer = (0..len).map(|_| random.byte()).collect();
    Case::find_weights(table, buffer)
}

/// A good table, with weights to be found or without.
fn plan(random: &mut Random) -> Plan {
    match random.below(12) {
        0..=2 => tables::weighed(random).0,
        3..=5 => one_removed(random, Bodies::Lower),
        6 | 7 => one_removed(random, Bodies::Any),
        8 => random_chain(random),
        9 => random_ring(random),
        _ => {
            let style = Style::any(random);
            tables::table(random, style)
        }
    }
}

/// What the bodies of a table's rules are made of.
#[derive(Clone, Copy, Debug, PartialEq, Eq)]
pub enum Bodies {
    /// Any facts.
    Any,
    /// Facts of symbols below the removed one, so that weights exist as long as bytes hold them.
    Lower,
}

/// A table in which each rule has one removed head.
pub fn one_removed(random: &mut Random, bodies: Bodies) -> Plan {
    let symbols = *random.pick(&[1, 2, 3, 4, 4, 5, 8, 12]);
    let arities: Vec<u8> = (0..symbols).map(|_| random.up_to(2) as u8).collect();
    let count = random.between(1, 3 + symbols);
    let rules = (0..count).map(|_| {
        let plan = RulePlan {
            kept: random.between(0, 1),
            removed: 1,
            guards: random.between(0, 1),
            items: random.between(0, 4),
            fails: 10,
        };
        let mut rule = rule(random, &arities, plan);
        if bodies == Bodies::Lower {
            lower_body(&mut rule);
        }
        rule
    });
    let rules = rules.collect();
    plan_of(arities, rules)
}

/// Leaves out body facts of symbols that are not below the removed head's.
fn lower_body(rule: &mut Rule) {
    // The second byte of a head or body fact is its symbol; a fail has none.
    let removed = rule.removed[0][1];
    let below = |record: &Vec<u8>| record.get(1).map_or(true, |symbol| *symbol < removed);
    rule.body.retain(below);
}

/// Each symbol but the first turns into so many of the one before it. The last symbol's rule comes
/// first, so that each raise makes the rules before it heavy again: the longest order.
pub fn chain(symbols: u8, copies: usize) -> Vec<Rule> {
    let falls = |symbol| turns_into(symbol, symbol - 1, copies);
    (1..symbols).rev().map(falls).collect()
}

/// Each symbol turns into the one before it, and the first into the last: there are no weights, and
/// all rise by one at a time up to 255.
pub fn ring(symbols: u8, rules: usize) -> Vec<Rule> {
    let before = |symbol| (symbol + symbols - 1) % symbols;
    let around = (0..symbols).cycle().take(rules);
    around
        .map(|symbol| turns_into(symbol, before(symbol), 1))
        .collect()
}

fn turns_into(symbol: u8, other: u8, copies: usize) -> Rule {
    let rule = Rule::new().remove(symbol, &[]);
    (0..copies).fold(rule, |rule, _| rule.add(other, &[]))
}

/// The longest searches, and one in each table at an edge.
pub fn edge_cases() -> Vec<Case> {
    let tables = edges::tables().into_iter().chain(edges::longest_tables(1));
    let mut found = longest_searches();
    found.extend(tables.map(whole));
    found
}

/// Searches that take longest, and those that just reach a weight of 255 or would pass it.
pub fn longest_searches() -> Vec<Case> {
    const LAST: u8 = MAX_SYMBOLS as u8;
    let all = [
        (LAST, chain(LAST, 1)),
        (LAST, ring(LAST, MAX_RULES)),
        (LAST, ring(LAST, MAX_SYMBOLS)),
        // 1, 3, 7 and so on up to 255, and one more.
        (8, chain(8, 2)),
        (9, chain(9, 2)),
        // 1, 4, 13, 40, 121, and then 364.
        (6, chain(6, 3)),
        (LAST, chain(LAST, 4)),
    ];
    let case = |(symbols, rules): (u8, Vec<Rule>)| whole(table(&vec![0; symbols.into()], &rules));
    all.into_iter().map(case).collect()
}

/// A search in a table, with one byte for each symbol that the table begins with.
fn whole(table: Vec<u8>) -> Case {
    let records = table.chunks(2);
    let symbols = records.take_while(|record| record[0] == SYMBOL).count();
    Case::find_weights(table, vec![0; symbols])
}

/// A chain of any length, its rules in any order.
fn random_chain(random: &mut Random) -> Plan {
    let copies = *random.pick(&[1, 1, 2, 3, 4]);
    let most = *random.pick(&[4, 9, MAX_SYMBOLS]);
    let symbols = random.between(2, most) as u8;
    let mut rules = chain(symbols, copies);
    shuffle(random, &mut rules);
    plan_of(vec![0; usize::from(symbols)], rules)
}

/// A ring of any length, at times with a rule left out, so that it is a chain.
fn random_ring(random: &mut Random) -> Plan {
    let symbols = *random.pick(&[1, 2, 3, 5, 8, MAX_SYMBOLS]);
    let mut rules = ring(symbols as u8, symbols);
    shuffle(random, &mut rules);
    if random.chance(50) {
        rules.pop();
    }
    plan_of(vec![0; symbols], rules)
}

fn shuffle(random: &mut Random, rules: &mut [Rule]) {
    for at in (1..rules.len()).rev() {
        rules.swap(at, random.between(0, at));
    }
}

fn plan_of(arities: Vec<u8>, rules: Vec<Rule>) -> Plan {
    Plan {
        arities,
        rules,
        most_facts: 16,
        most_steps: 600,
    }
}
