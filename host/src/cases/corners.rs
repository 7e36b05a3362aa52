//! Runs in which two endings meet in one firing, so that their order counts: 4, 6, 7.

use super::random::Random;
use super::Case;
use crate::build::{
    alone, constant, goal_fact, of, table, variable, Rule, DIFFERENCE, EQUAL, GREATER, QUOTIENT,
    SUM,
};
use crate::format::ANSWER_LEN;

/// A run in which endings meet, or just miss each other.
pub fn case(random: &mut Random) -> Case {
    let (table, goal) = match random.below(2) {
        0 => sum_and_stack(random),
        _ => stack_and_history(random),
    };
    Case::run(table, goal, 2_000, ANSWER_LEN)
}

/// p(X) <=> p(X + 1), p(0): the 256th firing passes the stack's room, and around it the sum
/// passes the greatest number.
fn sum_and_stack(random: &mut Random) -> (Vec<u8>, Vec<u8>) {
    let x = variable(0);
    let up = of(SUM, x, constant(1));
    let rule = Rule::new()
        .remove(0, &[x])
        .add(0, &[up])
        .add(0, &[alone(constant(0))]);
    let start = i32::MAX - 254 - random.up_to(2) as i32;
    (table(&[1], &[rule]), goal_fact(0, &[start]))
}

/// Pairs of p and single r fill the history to about 256 entries, n leaves about 252 entries
/// on the stack, and then s keeps itself and adds four more, perhaps with an undefined argument.
fn stack_and_history(random: &mut Random) -> (Vec<u8>, Vec<u8>) {
    const P: u8 = 0;
    const R: u8 = 1;
    const N: u8 = 2;
    const S: u8 = 3;
    let (x, y) = (variable(0), variable(1));
    let zero = alone(constant(0));
    let down = of(DIFFERENCE, x, constant(1));
    let last = match random.chance(30) {
        true => of(QUOTIENT, x, constant(0)),
        false => alone(x),
    };
    let deeper = Rule::new()
        .remove(N, &[x])
        .guard(alone(x), GREATER, zero)
        .add(N, &[down])
        .add(P, &[zero]);
    let bottom = Rule::new()
        .remove(N, &[x])
        .guard(alone(x), EQUAL, zero)
        .add(S, &[alone(x)]);
    let four = (0..3).fold(Rule::new().keep(S, &[x]), |rule, _| rule.add(P, &[zero]));
    let rules = [
        Rule::new().keep(P, &[x]).keep(P, &[y]),
        Rule::new().keep(R, &[x]),
        deeper,
        bottom,
        four.add(P, &[last]),
    ];
    let mut goal = vec![goal_fact(P, &[1]); 16];
    goal.extend(vec![goal_fact(R, &[1]); random.between(15, 16)]);
    goal.push(goal_fact(N, &[random.between(251, 253) as i32]));
    (table(&[1; 4], &rules), goal.concat())
}
