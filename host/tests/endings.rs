//! Each ending of a run, and the choices that the steps turn on.

use nadhirukh_host::build::{
    alone, constant, goal, of, table, variable, Rule, EQUAL, GREATER, LESS, QUOTIENT, REMAINDER,
    SUM,
};
use nadhirukh_host::format::{ANSWER_LEN, MAX_LIMIT};
use nadhirukh_host::outcome::ResultWords;
use nadhirukh_host::{plain, reference};

/// Runs both engines; they agree. The words of the result, and the answer.
fn run(table: &[u8], goal: &[u8], limit: u32) -> (ResultWords, Vec<u8>) {
    let mut answer = vec![0xA5; ANSWER_LEN];
    let mut plain_answer = answer.clone();
    let outcome = reference::run(table, goal, limit, &mut answer);
    assert_eq!(plain::run(table, goal, limit, &mut plain_answer), outcome);
    assert_eq!(plain_answer, answer);
    (outcome.words(), answer)
}

fn words(table: &[u8], goal: &[u8], limit: u32) -> ResultWords {
    run(table, goal, limit).0
}

/// So many facts of symbol 0 with arguments from 1 on.
fn counted(facts: i32) -> Vec<u8> {
    let each = (1..=facts).map(|value| goal(&[(0, &[value])]));
    each.collect::<Vec<_>>().concat()
}

#[test]
fn done_is_tested_before_the_limit_and_everything_else_behind_it() {
    let rule = Rule::new().remove(0, &[]).fail();
    let table = table(&[0], &[rule]);
    let goal = goal(&[(0, &[])]);
    assert_eq!(words(&table, &goal, 0), [2, 0, 0, 0, 0, 0]);
    assert_eq!(words(&table, &goal, 1), [2, 0, 1, 0, 1, 1]);
    assert_eq!(words(&table, &goal, 2), [2, 0, 2, 1, 1, 0]);
    assert_eq!(words(&table, &goal, 3), [1, 0, 3, 1, 1, 0]);
    assert_eq!(words(&table, &[], 0), [0, 0, 0, 0, 0, 0]);
}

#[test]
fn a_fail_gives_up_the_rest_of_the_stack() {
    let rule = Rule::new().remove(0, &[]).add(1, &[]).fail().add(1, &[]);
    let table = table(&[0, 0], &[rule]);
    let goal = goal(&[(0, &[]), (0, &[])]);
    // Activate p, Simplify, Activate q, Drop, Fail.
    assert_eq!(words(&table, &goal, 99), [1, 0, 5, 1, 2, 1]);
}

#[test]
fn a_body_argument_behind_a_fail_can_be_undefined() {
    let x = variable(0);
    let bad = of(QUOTIENT, x, constant(0));
    let rule = Rule::new().remove(0, &[x]).fail().add(0, &[bad]);
    let never = Rule::new().remove(0, &[constant(77)]);
    let table = table(&[1], &[never, rule]);
    assert_eq!(words(&table, &goal(&[(0, &[1])]), 99), [4, 1, 2, 0, 1, 1]);
}

#[test]
fn an_undefined_guard_counts_only_before_the_first_applicable_instance() {
    let (x, y) = (variable(0), variable(1));
    let rule = Rule::new().keep(0, &[x]).remove(1, &[y]).guard(
        of(QUOTIENT, constant(6), x),
        EQUAL,
        alone(y),
    );
    let table = table(&[1, 1], &[rule]);
    let first_applies = goal(&[(0, &[2]), (0, &[0]), (1, &[3])]);
    let undefined_first = goal(&[(0, &[0]), (0, &[2]), (1, &[3])]);
    assert_eq!(words(&table, &first_applies, 99)[0], 0);
    assert_eq!(words(&table, &undefined_first, 99), [3, 0, 7, 0, 3, 3]);
}

/// p(A, B) <=> A by B = 0 | true, and p(A, B) <=> q(A by B), with one of the two divisions.
fn dividing(operation: u8) -> [Vec<u8>; 2] {
    let (a, b) = (variable(0), variable(1));
    let (division, zero) = (of(operation, a, b), alone(constant(0)));
    let rule = Rule::new().remove(0, &[a, b]);
    let in_the_guard = rule.clone().guard(division, EQUAL, zero);
    let in_the_body = rule.add(1, &[division]);
    [in_the_guard, in_the_body].map(|rule| table(&[2, 1], &[rule]))
}

#[test]
fn a_division_without_a_value_ends_in_3_in_a_guard_and_in_4_in_a_body() {
    let divisions = [
        (QUOTIENT, i32::MIN, -1),
        (QUOTIENT, 1, 0),
        (REMAINDER, 1, 0),
    ];
    for (operation, a, b) in divisions {
        let [in_the_guard, in_the_body] = dividing(operation);
        let goal = goal(&[(0, &[a, b])]);
        assert_eq!(words(&in_the_guard, &goal, 99), [3, 0, 1, 0, 1, 1]);
        assert_eq!(words(&in_the_body, &goal, 99), [4, 0, 1, 0, 1, 1]);
    }
}

#[test]
fn the_lowest_number_by_minus_one_has_remainder_0() {
    let [in_the_guard, in_the_body] = dividing(REMAINDER);
    let goal = goal(&[(0, &[i32::MIN, -1])]);
    assert_eq!(words(&in_the_guard, &goal, 99), [0, 0, 2, 1, 1, 0]);
    let (words, answer) = run(&in_the_body, &goal, 99);
    assert_eq!(words, [0, 0, 4, 1, 2, 1]);
    // q(0), the second fact.
    assert_eq!(answer[..10], [17, 2, 0, 0, 0, 1, 0, 0, 0, 0]);
}

#[test]
fn the_store_holds_128_facts() {
    let x = variable(0);
    let rule = Rule::new().keep(0, &[x]).add(0, &[of(SUM, x, constant(1))]);
    let table = table(&[1], &[rule]);
    let ended = words(&table, &counted(1), MAX_LIMIT);
    assert_eq!(ended, [5, 0, 256, 128, 128, 128]);
    // One step before, the limit is met first.
    assert_eq!(words(&table, &counted(1), 256)[0], 2);
}

#[test]
fn the_stack_holds_256_entries() {
    let x = variable(0);
    let doubling = |fails: bool| {
        let rule = Rule::new().remove(0, &[x]).add(0, &[alone(x)]);
        match fails {
            true => rule.fail(),
            false => rule.add(0, &[alone(x)]),
        }
    };
    // Each firing adds one entry net: 255 of them fill the stack, the 256th is not taken.
    let ended = [6, 0, 511, 255, 256, 1];
    assert_eq!(
        words(&table(&[1], &[doubling(false)]), &counted(1), MAX_LIMIT),
        ended
    );
    assert_eq!(
        words(&table(&[1], &[doubling(true)]), &counted(1), MAX_LIMIT),
        ended
    );
}

#[test]
fn the_history_holds_256_entries() {
    let (x, y) = (variable(0), variable(1));
    let pairs = Rule::new().keep(0, &[x]).keep(0, &[y]);
    let table = table(&[1], &[pairs]);
    // 16 facts make 240 ordered pairs, 17 make 272.
    assert_eq!(
        words(&table, &counted(16), MAX_LIMIT)[..4],
        [0, 0, 304, 240]
    );
    let ended = words(&table, &counted(17), MAX_LIMIT);
    assert_eq!((ended[0], ended[3]), (7, 256));
}

#[test]
fn room_in_the_history_is_used_again() {
    // A thousand facts fire once each and give way to the next.
    let x = variable(0);
    let once = Rule::new().keep(0, &[x]);
    let next = Rule::new()
        .remove(0, &[x])
        .guard(alone(x), LESS, alone(constant(1000)))
        .add(0, &[of(SUM, x, constant(1))]);
    let ended = words(&table(&[1], &[once, next]), &counted(1), MAX_LIMIT);
    assert_eq!(ended, [0, 0, 4 * 999 + 5, 1000 + 999, 1000, 1]);
}

#[test]
fn every_removed_fact_frees_its_room_in_the_history() {
    // p and q fire once each, and go together: two entries come and go at each turn.
    let (x, y) = (variable(0), variable(1));
    let up = of(SUM, x, constant(1));
    let pair = Rule::new()
        .remove(0, &[x])
        .remove(1, &[y])
        .guard(alone(x), LESS, alone(constant(500)))
        .add(0, &[up])
        .add(1, &[up]);
    let rules = [Rule::new().keep(0, &[x]), Rule::new().keep(1, &[x]), pair];
    let goal = goal(&[(0, &[1]), (1, &[1])]);
    let ended = words(&table(&[1, 1], &rules), &goal, MAX_LIMIT);
    // A turn: five steps for p; Activate, Propagate, Default and the firing for q.
    assert_eq!(ended, [0, 0, 9 * 499 + 10, 3 * 499 + 2, 1000, 2]);
}

#[test]
fn a_removed_active_fact_keeps_its_entry_on_the_stack() {
    // Each q removes the p below it, whose entry stays: the stack fills, the store does not.
    let x = variable(0);
    let copy = Rule::new().keep(0, &[x]).add(1, &[alone(x)]);
    let next = Rule::new()
        .remove(0, &[x])
        .remove(1, &[x])
        .add(0, &[of(SUM, x, constant(1))]);
    let ended = words(&table(&[1, 1], &[copy, next]), &counted(1), MAX_LIMIT);
    // The 256th p would put its q on top of 256 entries.
    assert_eq!(ended, [6, 0, 4 * 255 + 1, 2 * 255, 2 * 255 + 1, 1]);
}

#[test]
fn a_removed_active_fact_goes_on_by_default_to_drop() {
    // p(X) keeps itself active while q, on top, removes it; three occurrences of p are left.
    let x = variable(0);
    let start = Rule::new().keep(0, &[x]).add(1, &[]);
    let remove = Rule::new().keep(1, &[]).remove(0, &[x]);
    let never = Rule::new()
        .remove(0, &[x])
        .guard(alone(x), GREATER, alone(x));
    let table = table(&[1, 0], &[start, remove, never]);
    // p: Activate, Propagate; q: Activate, Propagate, Default, Drop; p: three Defaults, Drop.
    assert_eq!(words(&table, &counted(1), 99), [0, 0, 10, 2, 2, 1]);
}

#[test]
fn an_active_fact_stays_at_its_occurrence_after_it_propagates() {
    let rule = Rule::new().keep(0, &[]).remove(1, &[]);
    let table = table(&[0, 0], &[rule]);
    let goal = goal(&[(1, &[]), (1, &[]), (1, &[]), (0, &[])]);
    // Three times Activate, Default, Drop; then Activate, three firings, Default, Drop.
    assert_eq!(words(&table, &goal, 99), [0, 0, 15, 3, 4, 1]);
}

#[test]
fn one_fact_never_stands_at_two_heads() {
    let x = variable(0);
    let rule = Rule::new().keep(0, &[x]).remove(0, &[x]);
    let table = table(&[1], &[rule]);
    assert_eq!(words(&table, &counted(2), 99), [0, 0, 8, 0, 2, 2]);
}

#[test]
fn partners_are_tried_by_their_list_in_written_head_order() {
    // p(X), q(Y), r <=> s(X,Y): r chooses the first p before the first q.
    let (x, y) = (variable(0), variable(1));
    let rule = Rule::new()
        .remove(0, &[x])
        .remove(1, &[y])
        .remove(2, &[])
        .guard(of(SUM, x, y), GREATER, alone(constant(11)))
        .add(3, &[alone(x), alone(y)]);
    let table = table(&[1, 1, 0, 2], &[rule]);
    let goal = goal(&[(1, &[10]), (0, &[1]), (1, &[11]), (0, &[2]), (2, &[])]);
    let (ended, answer) = run(&table, &goal, 99);
    assert_eq!((ended[0], ended[3], ended[5]), (0, 1, 3));
    // Facts 2 and 3 fired, so that 1, 4 and the new 6 = s(1,11) are left.
    let ids: Vec<u8> = answer.chunks(22).take(3).map(|record| record[1]).collect();
    assert_eq!(ids, [1, 4, 6]);
    assert_eq!(answer[44 + 5..44 + 14], [3, 1, 0, 0, 0, 11, 0, 0, 0]);
}

#[test]
fn endings_that_meet_in_one_firing_come_in_the_order_4_6_7() {
    let x = variable(0);
    let rule = Rule::new()
        .remove(0, &[x])
        .add(0, &[of(SUM, x, constant(1))])
        .add(0, &[alone(constant(0))]);
    let table = table(&[1], &[rule]);
    let from = |start: i32| goal(&[(0, &[start])]);
    // The 256th firing passes the stack's room; the sum is undefined one later, then there too.
    let later = words(&table, &from(i32::MAX - 256), MAX_LIMIT);
    assert_eq!(later, [6, 0, 511, 255, 256, 1]);
    let both = words(&table, &from(i32::MAX - 255), MAX_LIMIT);
    assert_eq!(both, [4, 0, 511, 255, 256, 1]);
}
