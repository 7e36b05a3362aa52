//! Weighing: its refusals, its greatest bound, and what it promises about runs.

use nadhirukh_host::build::{alone, constant, goal, table, variable, Rule};
use nadhirukh_host::cases::random::Random;
use nadhirukh_host::cases::{goals, tables};
use nadhirukh_host::format::{ANSWER_LEN, GREATEST_BOUND, STORE};
use nadhirukh_host::outcome::{Outcome, COUNTS_FROM, RESULT_WORDS};
use nadhirukh_host::{plain, reference};

/// Number, place, W and bound.
fn weighs(table: &[u8], weights: &[u8], goal: &[u8]) -> (u32, u32, u32, u32) {
    let weighing = reference::weigh(table, weights, goal);
    let outcome = weighing.outcome;
    assert_eq!(
        outcome.words()[COUNTS_FROM..],
        [0; RESULT_WORDS - COUNTS_FROM]
    );
    (
        outcome.number,
        outcome.place,
        weighing.weight,
        weighing.bound,
    )
}

/// q, q <=> p, and p <=> fail: fails weigh nothing.
fn two_for_one() -> Vec<u8> {
    let two = Rule::new().remove(1, &[]).remove(1, &[]).add(0, &[]);
    table(&[0, 0], &[two, Rule::new().remove(0, &[]).fail()])
}

#[test]
fn tests_come_in_order() {
    let table = two_for_one();
    let bad_goal = [16, 9, 0];
    assert_eq!(weighs(&[], &[0, 0, 0], &bad_goal), (17, 0, 0, 0));
    assert_eq!(weighs(&table, &[0], &bad_goal), (40, 0, 0, 0));
    assert_eq!(weighs(&table, &[1, 1, 0], &bad_goal), (40, 0, 0, 0));
    assert_eq!(weighs(&table, &[3, 0], &bad_goal), (41, 1, 0, 0));
    assert_eq!(weighs(&table, &[2, 1], &bad_goal), (42, 0, 0, 0));
    assert_eq!(weighs(&table, &[1, 1], &bad_goal), (32, 0, 0, 0));
    let many = goal(&vec![(0, &[][..]); 65]);
    assert_eq!(weighs(&table, &[1, 1], &many), (34, 0, 0, 0));
    let undeclared = goal(&[(0, &[]), (2, &[])]);
    assert_eq!(weighs(&table, &[1, 1], &undeclared), (33, 1, 0, 0));
}

#[test]
fn bound_counts_occurrences_body_facts_and_goal_facts() {
    // M 2, B 1, G 3, W 5: 4·(3 + 5) + 5 + 1.
    let three = goal(&[(0, &[]), (1, &[]), (1, &[])]);
    assert_eq!(weighs(&two_for_one(), &[3, 2], &three), (0, 0, 7, 48));
    assert_eq!(weighs(&two_for_one(), &[1, 2], &three), (0, 0, 5, 38));
    assert_eq!(weighs(&two_for_one(), &[1, 2], &[]), (0, 0, 0, 1));
    // Without rules nothing but the goal counts.
    assert_eq!(
        weighs(&table(&[0], &[]), &[9], &goal(&[(0, &[])])),
        (0, 0, 9, 12)
    );
    assert_eq!(weighs(&[8], &[], &[]), (0, 0, 0, 1));
}

#[test]
fn a_rule_that_removes_nothing_never_loses_weight() {
    let table = table(
        &[0],
        &[Rule::new().remove(0, &[]), Rule::new().keep(0, &[])],
    );
    assert_eq!(weighs(&table, &[255], &[]), (42, 1, 0, 0));
    let same = Rule::new().remove(0, &[]).add(0, &[]);
    let table = nadhirukh_host::build::table(&[0], &[same]);
    assert_eq!(weighs(&table, &[255], &[]), (42, 0, 0, 0));
}

#[test]
fn the_greatest_bound_is_a_legal_step_limit() {
    let x = variable(0);
    let light = alone(constant(0));
    let mut rule = Rule::new();
    for _ in 0..4 {
        rule = rule.remove(0, &[x]).add(1, &[light]);
    }
    let table = table(&[1, 1], &vec![rule; 64]);
    let goal = goal(&vec![(0, &[5][..]); 64]);
    let weighed = (0, 0, 16_320, GREATEST_BOUND);
    assert_eq!(weighs(&table, &[255, 1], &goal), weighed);
    let mut answer = vec![0; ANSWER_LEN];
    let outcome = reference::run(&table, &goal, GREATEST_BOUND, &mut answer);
    // Four facts of equal weight go at a time, and leave four light ones.
    assert_eq!(
        (outcome.number, outcome.firings, outcome.stored),
        (0, 16, 64)
    );
}

/// A random table that loses weight, with a goal: W, the bound, and the run with that limit.
fn weighed_run(seed: u64) -> Option<(u32, u32, Outcome)> {
    let mut random = Random::new(seed);
    let (plan, weights) = tables::weighed(&mut random);
    let most = *random.pick(&[4, 10, 64]);
    let goal = goals::goal(&mut random, &plan, most);
    let weighing = reference::weigh(&plan.bytes(), &weights, &goal);
    if weighing.outcome.number != 0 {
        return None;
    }
    let mut answer = vec![0; ANSWER_LEN];
    let outcome = plain::run(&plan.bytes(), &goal, weighing.bound, &mut answer);
    Some((weighing.weight, weighing.bound, outcome))
}

#[test]
fn a_weighed_run_keeps_within_its_bound() {
    let mut weighed = 0;
    for seed in 0..6_000 {
        let (weight, bound, outcome) = match weighed_run(seed) {
            Some(run) => run,
            None => continue,
        };
        weighed += 1;
        assert!(outcome.steps <= bound, "seed {}", seed);
        assert!(outcome.firings <= weight, "seed {}", seed);
        assert_ne!(outcome.number, 2, "seed {}", seed);
        assert_ne!(outcome.number, 7, "seed {}", seed);
        if weight <= STORE as u32 {
            assert_ne!(outcome.number, 5, "seed {}", seed);
        }
    }
    assert!(weighed > 3_000, "{} tables lost weight", weighed);
}
