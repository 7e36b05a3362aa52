//! Random goals and weights, good and damaged.

use super::random::Random;
use super::rules::{any_symbol, number, small};
use super::Plan;
use crate::build::goal_fact;
use crate::format::{GOAL_RECORD_LEN, MAX_GOAL};

/// A good goal of at most so many facts, for the plan's symbols.
pub fn goal(random: &mut Random, plan: &Plan, most: usize) -> Vec<u8> {
    let facts = match random.below(20) {
        0 => 0,
        1 | 2 => most,
        3..=9 => random.between(1, most),
        _ => random.between((most + 1) / 2, most),
    };
    facts_of(random, plan, facts).concat()
}

/// So many good goal facts.
fn facts_of(random: &mut Random, plan: &Plan, facts: usize) -> Vec<Vec<u8>> {
    if plan.arities.is_empty() {
        return Vec::new();
    }
    (0..facts).map(|_| fact(random, plan)).collect()
}

fn fact(random: &mut Random, plan: &Plan) -> Vec<u8> {
    let symbol = any_symbol(random, &plan.arities);
    let arity = plan.arities[usize::from(symbol)];
    let spread = random.below(10);
    let mut argument = || match spread {
        0 | 1 => number(random),
        2..=5 => small(random),
        _ => random.up_to(1) as i32,
    };
    let arguments: Vec<i32> = (0..arity).map(|_| argument()).collect();
    goal_fact(symbol, &arguments)
}

/// A goal with something wrong in it, mostly.
pub fn damaged(random: &mut Random, plan: &Plan) -> Vec<u8> {
    let facts = random.between(1, 6);
    let mut bytes = facts_of(random, plan, facts).concat();
    match random.below(8) {
        0 => bytes.truncate(random.below(bytes.len() as u64 + 1) as usize),
        1 => bytes.extend((0..random.between(1, 17)).map(|_| 0_u8)),
        2 => bytes = facts_of(random, plan, MAX_GOAL + 1).concat(),
        3 => {
            let facts = MAX_GOAL + random.between(0, 4);
            bytes = facts_of(random, plan, facts).concat();
            damage_fact(random, &mut bytes);
        }
        4 => bytes = vec![16; GOAL_RECORD_LEN * (MAX_GOAL + 1) + random.between(0, 1)],
        _ => damage_fact(random, &mut bytes),
    }
    bytes
}

/// Changes one byte of one fact: its kind, its symbol or an argument's byte.
fn damage_fact(random: &mut Random, bytes: &mut [u8]) {
    let facts = bytes.len() / GOAL_RECORD_LEN;
    if facts == 0 {
        return;
    }
    let start = random.below(facts as u64) as usize * GOAL_RECORD_LEN;
    match random.below(3) {
        0 => bytes[start] = *random.pick(&[0, 1, 8, 15, 17, 18, 255]),
        1 => bytes[start + 1] = *random.pick(&[1, 2, 3, 4, 5, 31, 32, 255]),
        _ => bytes[start + random.between(2, 17)] = random.byte(),
    }
}

/// Makes weights wrong in one way: a zero, one too few, one too many, or changed.
pub fn change_weights(random: &mut Random, weights: &mut Vec<u8>) {
    let at = random.below(weights.len() as u64) as usize;
    match random.below(8) {
        0..=2 => weights[at] = 0,
        3 => weights[at] = random.byte(),
        4 => {
            weights.pop();
        }
        5 => weights.push(random.byte()),
        6 => weights.extend([0; 40]),
        _ => weights.clear(),
    }
}
