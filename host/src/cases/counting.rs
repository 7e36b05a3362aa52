//! Runs that count through many rule heads of few symbols. Facts ask for an occurrence again after
//! the facts of a body asked for others.

use super::random::Random;
use super::Case;
use crate::build::{
    alone, constant, goal, goal_fact, of, table, variable, Rule, Slot, DIFFERENCE, GREATER,
};
use crate::format::{ANSWER_LEN, MAX_HEADS, MAX_RULES};

/// The symbols: two that have heads, and one that has none.
const S: u8 = 0;
const T: u8 = 1;
const U: u8 = 2;

/// What no fact has for an argument, so that a head with it is passed.
const NEVER: i32 = 9;

/// The most steps of a run.
const STEPS: u32 = 2_000;

/// A run of a table with few rules, or at times one of those that are made for an edge or a way.
pub fn case(random: &mut Random) -> Case {
    match random.below(8) {
        0 | 1 => random.pick(&edge_cases()).clone(),
        2 => random.pick(&asking_again()).clone(),
        _ => few_rules(random),
    }
}

/// Runs at the edges: no rules, 64 rules, 256 heads of one symbol.
pub fn edge_cases() -> [Case; 3] {
    let no_rules = (vec![], goal(&[(S, &[1]), (U, &[2]), (S, &[3])]));
    [no_rules, many_rules(), many_heads()].map(|(rules, goal)| run(&rules, goal))
}

/// Runs in which s(5) asks again for occurrence 3, the mark being on a later one in the same rule, on
/// one in a later rule, or on another symbol in either. A mistake can be seen: the fact fires at no
/// other head, so that it comes to its end in too many or too few steps.
pub fn asking_again() -> [Case; 4] {
    let never = [constant(NEVER)];
    let in_rule = one_between();
    let beside_t = one_between().remove(T, &[constant(0)]);
    let of_one = [alone(constant(1))];
    let in_later_rule = |symbol| vec![one_between().add(symbol, &of_one), keep_all(symbol, &never)];
    let rules = [
        vec![in_rule.add(S, &of_one)],
        in_later_rule(S),
        vec![beside_t.add(T, &of_one)],
        in_later_rule(T),
    ];
    rules.map(|behind| {
        let rules = [vec![keep_all(S, &never)], behind].concat();
        run(&rules, goal(&[(T, &[0]), (S, &[2]), (S, &[3]), (S, &[5])]))
    })
}

/// s(2), s(X), s(3) and X > 4, to which s(5) is the only one that fires.
fn one_between() -> Rule {
    let x = variable(0);
    let rule = keep_all(S, &[constant(2), x, constant(3)]);
    rule.guard(alone(x), GREATER, alone(constant(4)))
}

fn run(rules: &[Rule], goal: Vec<u8>) -> Case {
    Case::run(table(&[1; 3], rules), goal, STEPS, ANSWER_LEN)
}

/// As many rules as there can be, with one head each: all of them s but the last, and no u. In the
/// middle s(X) ==> t(X), u(X), and last t(X) <=> u(X).
fn many_rules() -> (Vec<Rule>, Vec<u8>) {
    let x = variable(0);
    let mut rules = vec![Rule::new().keep(S, &[constant(NEVER)]); MAX_RULES - 1];
    let middle = Rule::new().keep(S, &[x]);
    rules[MAX_RULES / 2] = middle.add(T, &[alone(x)]).add(U, &[alone(x)]);
    rules.push(Rule::new().remove(T, &[x]).add(U, &[alone(x)]));
    (rules, goal(&[(U, &[1]), (T, &[2]), (S, &[3]), (T, &[4])]))
}

/// As many heads of s as there can be. First s(2), s(3), s(4) \ s(1) <=> true, and last s(X), s(Y),
/// s(3), s(2) ==> X > 3, Y > 3 | s(X - Y). So s(5) fires at occurrence 255, where it adds s(-1), which
/// passes all heads; and at 256, where it adds s(1), which goes at occurrence 1.
fn many_heads() -> (Vec<Rule>, Vec<u8>) {
    let (x, y) = (variable(0), variable(1));
    let three = alone(constant(3));
    let first = (2..=4).fold(Rule::new(), |rule, at| rule.keep(S, &[constant(at)]));
    let last = [x, y, constant(3), constant(2)];
    let last = keep_all(S, &last)
        .guard(alone(x), GREATER, three)
        .guard(alone(y), GREATER, three)
        .add(S, &[of(DIFFERENCE, x, y)]);
    let mut rules = vec![keep_all(S, &[constant(NEVER); MAX_HEADS]); MAX_RULES];
    rules[0] = first.remove(S, &[constant(1)]);
    rules[MAX_RULES - 1] = last;
    let goal: Vec<Vec<u8>> = (2..=5).map(|at| goal_fact(S, &[at])).collect();
    (rules, goal.concat())
}

/// A rule that keeps a head of a symbol for each of these.
fn keep_all(symbol: u8, slots: &[Slot]) -> Rule {
    let keep = |rule: Rule, slot: &Slot| rule.keep(symbol, &[*slot]);
    slots.iter().fold(Rule::new(), keep)
}

/// A run of few rules: before and behind those that fire stand some that are passed.
pub fn few_rules(random: &mut Random) -> Case {
    let mut rules = Vec::new();
    for _ in 0..random.between(1, 3) {
        rules.extend(some_passed(random));
        rules.push(removing(random));
        rules.extend(some_passed(random));
        rules.push(adding(random));
    }
    rules.extend(some_passed(random));
    let facts = random.between(3, 7);
    let goal: Vec<Vec<u8>> = (0..facts).map(|_| fact(random)).collect();
    run(&rules, goal.concat())
}

/// A fact of any symbol, mostly one above 1.
fn fact(random: &mut Random) -> Vec<u8> {
    let symbol = *random.pick(&[S, S, S, T, T, U]);
    goal_fact(symbol, &[*random.pick(&[0, 2, 2, 3, 3])])
}

/// A symbol that has heads, mostly s.
fn with_heads(random: &mut Random) -> u8 {
    *random.pick(&[S, S, T])
}

/// No rule that is passed, one, or two.
fn some_passed(random: &mut Random) -> Vec<Rule> {
    let rules = *random.pick(&[0, 0, 0, 0, 1, 2]);
    (0..rules).map(|_| passed(random)).collect()
}

/// A rule whose heads no fact matches, so that they only count.
fn passed(random: &mut Random) -> Rule {
    let heads = random.between(1, MAX_HEADS);
    let kept = random.between(0, heads);
    let never = [constant(NEVER)];
    (0..heads).fold(Rule::new(), |rule, head| match head < kept {
        true => rule.keep(with_heads(random), &never),
        false => rule.remove(with_heads(random), &never),
    })
}

/// A rule that removes a fact of 0, at times beside another one of its symbol.
fn removing(random: &mut Random) -> Rule {
    let symbol = with_heads(random);
    let rule = match random.chance(50) {
        true => Rule::new().keep(symbol, &[variable(0)]),
        false => Rule::new(),
    };
    rule.remove(symbol, &[constant(0)])
}

/// A rule that keeps one to three facts above 1 and adds up to two of 0 or 1, which are through before
/// the fact that fired goes on: those of 0 may be removed, and those of 1 pass all heads. A fact does
/// not match all of its heads where one is of a constant.
fn adding(random: &mut Random) -> Rule {
    let heads = *random.pick(&[1, 2, 2, 3]);
    let rule = (0..heads).fold(Rule::new(), |rule, head| keep_above_one(random, rule, head));
    let items = *random.pick(&[0, 1, 1, 2]);
    (0..items).fold(rule, |rule, _| {
        let symbol = *random.pick(&[S, S, T, T, U]);
        rule.add(symbol, &[alone(constant(*random.pick(&[0, 0, 1])))])
    })
}

/// The rule with one more kept head: a fact of 2 or 3, or of either.
fn keep_above_one(random: &mut Random, rule: Rule, head: u32) -> Rule {
    let x = variable(head);
    let slot = *random.pick(&[x, x, constant(2), constant(3)]);
    let rule = rule.keep(with_heads(random), &[slot]);
    match slot == x {
        true => rule.guard(alone(x), GREATER, alone(constant(1))),
        false => rule,
    }
}
