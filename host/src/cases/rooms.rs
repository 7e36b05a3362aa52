//! Runs that fill store, stack or history to the last place, or stop one short of it or beyond.

use super::random::Random;
use super::Case;
use crate::build::{
    alone, constant, goal_fact, of, table, variable, Rule, DIFFERENCE, GREATER, SUM,
};
use crate::format::{ANSWER_LEN, HISTORY, MAX_GOAL, STACK, STORE};

/// A run near the end of one room.
pub fn case(random: &mut Random) -> Case {
    let (table, goal) = match random.below(3) {
        0 => store(random),
        1 => stack(random),
        _ => history(random),
    };
    let extra = *random.pick(&[0, 0, 1, 22]);
    Case::run(table, goal.concat(), 3_000, ANSWER_LEN + extra)
}

/// One less than a room holds, as many, or one more.
fn near(random: &mut Random, room: usize) -> usize {
    room - 1 + random.between(0, 2)
}

/// a(X) ==> b(X), b(X + 1) and so on, and c, which no rule names: 127 to 129 facts in all. With
/// 128 the run is done, and its answer takes the whole buffer.
fn store(random: &mut Random) -> (Vec<u8>, Vec<Vec<u8>>) {
    const A: u8 = 0;
    const B: u8 = 1;
    const C: u8 = 2;
    let x = variable(0);
    let copies = random.between(1, 4);
    let rule = (0..copies).fold(Rule::new().keep(A, &[x]), |rule, copy| {
        rule.add(B, &[of(SUM, x, constant(copy as i32))])
    });
    let facts = near(random, STORE);
    let with_copies = facts / (1 + copies);
    let mut goal: Vec<Vec<u8>> = (0..with_copies)
        .map(|at| goal_fact(A, &[at as i32]))
        .collect();
    for rest in 0..facts % (1 + copies) {
        let at = random.between(0, goal.len());
        goal.insert(at, goal_fact(C, &[-(rest as i32)]));
    }
    goal.truncate(MAX_GOAL);
    (table(&[1; 3], &[rule]), goal)
}

/// n(X) <=> X > 0 | n(X - 1), m(X) leaves an m on the stack at each firing, up to 255 to 257
/// entries; then m(X) <=> true takes them off again.
fn stack(random: &mut Random) -> (Vec<u8>, Vec<Vec<u8>>) {
    const N: u8 = 0;
    const M: u8 = 1;
    let x = variable(0);
    let down = of(DIFFERENCE, x, constant(1));
    let deeper = Rule::new()
        .remove(N, &[x])
        .guard(alone(x), GREATER, alone(constant(0)))
        .add(N, &[down])
        .add(M, &[alone(x)]);
    let gone = Rule::new().remove(M, &[x]);
    let waiting = random.between(0, MAX_GOAL - 1);
    let firings = near(random, STACK) - 1 - waiting;
    let mut goal = vec![goal_fact(N, &[firings as i32])];
    goal.resize(1 + waiting, goal_fact(M, &[0]));
    (table(&[1; 2], &[deeper, gone]), goal)
}

/// Pairs of 16 facts p and single facts r fill the history to 255 to 257 entries. At times
/// p(1) is removed once it is full, its 30 entries give way, and more facts r fill it anew.
fn history(random: &mut Random) -> (Vec<u8>, Vec<Vec<u8>>) {
    const P: u8 = 0;
    const R: u8 = 1;
    const D: u8 = 2;
    let (x, y) = (variable(0), variable(1));
    let rules = [
        Rule::new().keep(P, &[x]).keep(P, &[y]),
        Rule::new().keep(R, &[x]),
        Rule::new().remove(D, &[x]).remove(P, &[x]),
    ];
    let mut goal: Vec<Vec<u8>> = (1..=16).map(|at| goal_fact(P, &[at])).collect();
    let singles = HISTORY - 16 * 15;
    if random.chance(50) {
        goal.resize(goal.len() + singles, goal_fact(R, &[0]));
        goal.push(goal_fact(D, &[1]));
        goal.resize(goal.len() + near(random, 30), goal_fact(R, &[1]));
    } else {
        goal.resize(goal.len() + near(random, singles), goal_fact(R, &[0]));
    }
    (table(&[1; 3], &rules), goal)
}
