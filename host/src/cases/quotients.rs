//! Runs of rules that divide, in guards and in bodies: numbers of every sign and at the ends of
//! the range, with and without something left, and at times such as have no quotient.

use super::random::Random;
use super::{Case, Plan};
use crate::build::{
    alone, constant, goal_fact, of, variable, Expression, Rule, QUOTIENT, REMAINDER,
};
use crate::divisions::{candidates, PAIRS};
use crate::format::ANSWER_LEN;
use crate::reference::numbers::Operation;

/// reading(a, b, q, r): a is divided by b, the quotient compared with q and the remainder with r.
const READING: u8 = 0;
/// class(x, y): what a rule makes of a reading.
const CLASS: u8 = 1;

/// A dividend and a divisor.
type Pair = (i32, i32);

/// The most readings of a goal, and steps of a run.
const READINGS: usize = 16;
const STEPS: u32 = 500;

/// A run of a goal on a table.
pub fn case(random: &mut Random) -> Case {
    let table = table(random).bytes();
    Case::run(table, goal(random), STEPS, ANSWER_LEN)
}

/// Up to three rules that divide readings. Each has one head.
pub fn table(random: &mut Random) -> Plan {
    Plan {
        arities: vec![4, 2],
        rules: (0..random.between(1, 3)).map(|_| rule(random)).collect(),
        most_facts: READINGS,
        most_steps: STEPS,
    }
}

/// Readings, at times such as have no quotient among them.
pub fn goal(random: &mut Random) -> Vec<u8> {
    let pair: fn(&mut Random) -> Pair = match random.chance(40) {
        true => any_pair,
        false => pair_with_quotient,
    };
    let readings = random.between(4, READINGS);
    let goal: Vec<Vec<u8>> = (0..readings).map(|_| reading(random, pair)).collect();
    goal.concat()
}

/// One of every sort, or small numbers. The lowest number by -1 ends most runs, so it comes more
/// often than others.
fn any_pair(random: &mut Random) -> Pair {
    match random.below(20) {
        0 | 1 => (i32::MIN, -1),
        2..=15 => *random.pick(&PAIRS),
        _ => (small(random), small(random)),
    }
}

fn pair_with_quotient(random: &mut Random) -> Pair {
    loop {
        let (a, b) = any_pair(random);
        if Operation::Quotient.apply(a, b).is_some() {
            return (a, b);
        }
    }
}

/// A reading with numbers that its quotient and its remainder are, or may be taken for.
fn reading(random: &mut Random, pair: fn(&mut Random) -> Pair) -> Vec<u8> {
    let (a, b) = pair(random);
    let [q, r] = [Operation::Quotient, Operation::Remainder].map(|operation| match b {
        0 => small(random),
        _ => *random.pick(&candidates(operation, a, b)),
    });
    goal_fact(READING, &[a, b, q, r])
}

/// A number from -20 to 20.
fn small(random: &mut Random) -> i32 {
    random.up_to(40) as i32 - 20
}

/// A rule that divides a reading in its guard, in its body, or in both.
fn rule(random: &mut Random) -> Rule {
    let reading = [0, 1, 2, 3].map(variable);
    let rule = match random.chance(50) {
        true => Rule::new().keep(READING, &reading),
        false => Rule::new().remove(READING, &reading),
    };
    match random.below(3) {
        0 => guarded(random, rule).add(CLASS, &[alone(reading[0]), alone(reading[1])]),
        1 => sorted(random, rule),
        _ => {
            let rule = guarded(random, rule);
            sorted(random, rule)
        }
    }
}

/// The rule with a guard that compares the quotient with q, or the remainder with r.
fn guarded(random: &mut Random, rule: Rule) -> Rule {
    let (operation, number) = *random.pick(&[(QUOTIENT, variable(2)), (REMAINDER, variable(3))]);
    let division = of(operation, variable(0), variable(1));
    let comparator = random.below(6) as u8;
    match random.chance(50) {
        true => rule.guard(division, comparator, alone(number)),
        false => rule.guard(alone(number), comparator, division),
    }
}

/// The rule with a class for its body.
fn sorted(random: &mut Random, rule: Rule) -> Rule {
    let class = [(); 2].map(|_| division(random));
    rule.add(CLASS, &class)
}

/// A division of the reading, at times by or of a constant.
fn division(random: &mut Random) -> Expression {
    let operation = *random.pick(&[QUOTIENT, REMAINDER]);
    let number = constant(small(random));
    match random.below(8) {
        0 => of(operation, number, variable(1)),
        1 => of(operation, variable(0), number),
        _ => of(operation, variable(0), variable(1)),
    }
}
