//! Runs of rules with two to four heads that share their variables, over a small graph: e is an
//! edge, and p a path that a rule adds.

use super::random::Random;
use super::Case;
use crate::build::{
    alone, goal_fact, of, table, variable, Rule, EQUAL, LESS, QUOTIENT, REMAINDER, UNEQUAL,
};
use crate::format::ANSWER_LEN;

const E: u8 = 0;
const P: u8 = 1;

/// A run of one or two such rules, behind one that keeps a single path from node to node, so that
/// paths stay few.
pub fn case(random: &mut Random) -> Case {
    let path = [variable(0), variable(1)];
    let mut rules = vec![Rule::new().keep(P, &path).remove(P, &path)];
    for _ in 0..random.between(1, 2) {
        rules.push(chain(random));
    }
    let nodes = random.between(2, 3) as u32;
    let edges = random.between(4, 7);
    let mut node = || random.up_to(nodes - 1) as i32;
    let goal: Vec<Vec<u8>> = (0..edges)
        .map(|_| goal_fact(E, &[node(), node()]))
        .collect();
    Case::run(table(&[2, 2], &rules), goal.concat(), 120, ANSWER_LEN)
}

/// e(0,1), e(1,2) and so on, at times back to 0, with a path from the first to the last as body.
fn chain(random: &mut Random) -> Rule {
    let heads = *random.pick(&[2, 3, 3, 4, 4]);
    let kept = match random.chance(50) {
        true => heads,
        false => random.between(0, heads),
    };
    let closed = random.chance(30);
    let mut rule = Rule::new();
    for head in 0..heads {
        let to = match closed && head + 1 == heads {
            true => 0,
            false => head + 1,
        };
        let symbol = if random.chance(92) { E } else { P };
        let slots = [variable(head as u32), variable(to as u32)];
        rule = match head < kept {
            true => rule.keep(symbol, &slots),
            false => rule.remove(symbol, &slots),
        };
    }
    let last = if closed { heads - 1 } else { heads };
    ended(random, rule, last as u32)
}

/// The rule with a guard, at times one that is undefined at node 0, and with its body.
fn ended(random: &mut Random, rule: Rule, last: u32) -> Rule {
    let (first, last) = (variable(0), variable(last));
    let rule = match random.below(14) {
        0 | 1 => rule.guard(alone(first), LESS, alone(last)),
        2 | 3 => rule.guard(alone(first), UNEQUAL, alone(last)),
        4 => rule.guard(of(REMAINDER, first, last), EQUAL, alone(first)),
        _ => rule,
    };
    match random.below(10) {
        0..=2 => rule,
        3 => rule.add(P, &[of(QUOTIENT, first, last), alone(last)]),
        _ => rule.add(P, &[alone(first), alone(last)]),
    }
}
