//! Long runs: thousands of steps, and now and then more identifiers than 16 bits hold.

use super::random::Random;
use super::Case;
use crate::build::{
    alone, constant, goal_fact, of, table, variable, Rule, DIFFERENCE, GREATER, LESS, SUM,
};
use crate::format::{ANSWER_LEN, MAX_LIMIT};

/// A run of two to about two hundred thousand steps.
pub fn case(random: &mut Random) -> Case {
    let rounds = match random.below(60) {
        0 => random.between(65_000, 66_000),
        _ => random.between(1_000, 9_000),
    };
    let (table, goal) = match random.below(3) {
        0 => countdown(random, rounds as i32),
        1 => sum(rounds as i32),
        _ => turnover(rounds as i32),
    };
    Case::run(table, goal, MAX_LIMIT, ANSWER_LEN)
}

/// n(X) <=> X > 0 | n(X - 1), with another fact in the store.
fn countdown(random: &mut Random, rounds: i32) -> (Vec<u8>, Vec<u8>) {
    let x = variable(0);
    let rule = Rule::new()
        .remove(0, &[x])
        .guard(alone(x), GREATER, alone(constant(0)))
        .add(0, &[of(DIFFERENCE, x, constant(1))]);
    let other = goal_fact(1, &[random.bits() as i32]);
    let goal = [goal_fact(0, &[rounds]), other].concat();
    (table(&[1, 1], &[rule]), goal)
}

/// n(X), sum(S) <=> X > 0 | sum(S + X), n(X - 1): the sum passes the greatest number from 65,536
/// rounds on.
fn sum(rounds: i32) -> (Vec<u8>, Vec<u8>) {
    let (x, s) = (variable(0), variable(1));
    let rule = Rule::new()
        .remove(0, &[x])
        .remove(1, &[s])
        .guard(alone(x), GREATER, alone(constant(0)))
        .add(1, &[of(SUM, s, x)])
        .add(0, &[of(DIFFERENCE, x, constant(1))]);
    let goal = [goal_fact(0, &[rounds]), goal_fact(1, &[0])].concat();
    (table(&[1, 1], &[rule]), goal)
}

/// p(X) ==> q(X) and p(X), q(Y) <=> X < rounds | p(X + 1): an entry passes through the history in
/// each round.
fn turnover(rounds: i32) -> (Vec<u8>, Vec<u8>) {
    let (x, y) = (variable(0), variable(1));
    let once = Rule::new().keep(0, &[x]).add(1, &[alone(x)]);
    let next = Rule::new()
        .remove(0, &[x])
        .remove(1, &[y])
        .guard(alone(x), LESS, alone(constant(rounds)))
        .add(0, &[of(SUM, x, constant(1))]);
    (table(&[1, 1], &[once, next]), goal_fact(0, &[0]))
}
