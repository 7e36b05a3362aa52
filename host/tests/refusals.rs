//! Each refusal with its place, and the order of the tests.

use nadhirukh_host::build::{alone, constant, goal, of, table, table_a, variable, Rule};
use nadhirukh_host::build::{AT_MOST, SUM};
use nadhirukh_host::format::{ANSWER_LEN, MAX_LIMIT};
use nadhirukh_host::outcome::{COUNTS_FROM, RESULT_WORDS};
use nadhirukh_host::{plain, reference};

/// Both engines' number and place for a table.
fn checks_to(table: &[u8]) -> (u32, u32) {
    let outcome = reference::check(table);
    assert_eq!(plain::check(table), outcome);
    assert_eq!(
        outcome.words()[COUNTS_FROM..],
        [0; RESULT_WORDS - COUNTS_FROM]
    );
    (outcome.number, outcome.place)
}

/// Both engines' number and place for a run that is refused; the buffer stays as it was.
fn run_refused(table: &[u8], goal: &[u8], limit: u32, answer_len: usize) -> (u32, u32) {
    let mut answer = vec![0xA5; answer_len];
    let outcome = reference::run(table, goal, limit, &mut answer);
    assert_eq!(plain::run(table, goal, limit, &mut answer), outcome);
    assert!(answer.iter().all(|byte| *byte == 0xA5));
    assert_eq!(
        outcome.words()[COUNTS_FROM..],
        [0; RESULT_WORDS - COUNTS_FROM]
    );
    (outcome.number, outcome.place)
}

/// A good table whose byte at an offset is changed.
fn with_byte(mut table: Vec<u8>, at: usize, value: u8) -> Vec<u8> {
    table[at] = value;
    table
}

/// p(X) <=> X at most X + 1 | p(X), with records at 0, 2, 3, 25, 49 and 95.
fn one_rule() -> Vec<u8> {
    let x = variable(0);
    let rule = Rule::new()
        .remove(0, &[x])
        .guard(alone(x), AT_MOST, of(SUM, x, constant(1)))
        .add(0, &[alone(x)]);
    table(&[1], &[rule])
}

#[test]
fn the_smallest_good_table_is_one_byte() {
    assert_eq!(checks_to(&[8]), (0, 0));
    assert_eq!(checks_to(&one_rule()), (0, 0));
}

#[test]
fn unknown_kinds_are_16_also_as_the_last_byte() {
    for kind in [0, 9, 15, 16, 17, 18, 255] {
        assert_eq!(checks_to(&[kind]), (16, 0));
        assert_eq!(checks_to(&[1, 4, kind]), (16, 2));
    }
}

#[test]
fn a_cut_record_is_17_at_its_offset_and_a_missing_end_at_the_length() {
    assert_eq!(checks_to(&[]), (17, 0));
    assert_eq!(checks_to(&[1]), (17, 0));
    assert_eq!(checks_to(&[1, 2]), (17, 2));
    // The cut comes before order: a head before any rule.
    assert_eq!(checks_to(&[3, 0]), (17, 0));
    assert_eq!(checks_to(&[1, 2, 2]), (17, 3));
    assert_eq!(checks_to(&one_rule()[..95]), (17, 95));
    assert_eq!(checks_to(&one_rule()[..94]), (17, 49));
}

#[test]
fn records_out_of_order_are_18() {
    assert_eq!(checks_to(&[1, 2, 7, 8]), (18, 2));
    assert_eq!(checks_to(&[2, 1, 2, 8]), (18, 1));
    let head = |kind: u8| {
        let mut record = vec![kind, 0];
        record.resize(22, 0);
        record
    };
    let kept_late = [&[1, 0, 2][..], &head(4), &head(3), &[8]].concat();
    assert_eq!(checks_to(&kept_late), (18, 25));
    let head_behind_body = [&[1, 0, 2][..], &head(4), &[7], &head(4), &[8]].concat();
    assert_eq!(checks_to(&head_behind_body), (18, 26));
    let item_behind_fail = [&[1, 0, 2][..], &head(4), &[7, 7, 8]].concat();
    assert_eq!(checks_to(&item_behind_fail), (0, 0));
}

#[test]
fn whatever_follows_a_headless_rule_is_21_unless_it_is_a_head() {
    assert_eq!(checks_to(&[2, 2, 8]), (21, 1));
    assert_eq!(checks_to(&[2, 7, 8]), (21, 1));
    assert_eq!(checks_to(&[2, 8]), (21, 1));
    let guard = [vec![2], vec![5; 24], vec![8]].concat();
    assert_eq!(checks_to(&guard), (21, 1));
    // 21 comes before 19: a 65th rule behind a headless one.
    let mut rules = table(&[0], &vec![Rule::new().keep(0, &[]); 63]);
    rules.pop();
    rules.extend([2, 2, 8]);
    assert_eq!(checks_to(&rules), (21, rules.len() as u32 - 2));
}

#[test]
fn one_too_many_is_19_before_its_fields_are_read() {
    let symbols = [[1, 0].repeat(32), vec![1, 9, 8]].concat();
    assert_eq!(checks_to(&symbols), (19, 64));
    let fifth = (0..5).fold(Rule::new(), |rule, _| rule.keep(0, &[]));
    assert_eq!(checks_to(&table(&[0], &[fifth])), (19, 3 + 4 * 22));
    let four = (0..4).fold(Rule::new(), |rule, _| rule.keep(0, &[]));
    let undeclared = four.keep(9, &[]);
    assert_eq!(checks_to(&table(&[0], &[undeclared])), (19, 3 + 4 * 22));
    let fails = (0..5).fold(Rule::new().keep(0, &[]), |rule, _| rule.fail());
    assert_eq!(checks_to(&table(&[0], &[fails])), (19, 3 + 22 + 4));
}

#[test]
fn bad_fields_are_20_at_their_record() {
    let good = one_rule;
    // Arity, undeclared symbol, tag, a later place, a variable above 15.
    assert_eq!(checks_to(&with_byte(good(), 1, 5)), (20, 0));
    assert_eq!(checks_to(&with_byte(good(), 4, 1)), (20, 3));
    assert_eq!(checks_to(&with_byte(good(), 5, 0)), (20, 3));
    assert_eq!(checks_to(&with_byte(good(), 5, 3)), (20, 3));
    assert_eq!(checks_to(&with_byte(good(), 24, 1)), (20, 3));
    assert_eq!(checks_to(&with_byte(good(), 6, 16)), (20, 3));
    assert_eq!(checks_to(&with_byte(good(), 9, 1)), (20, 3));
    // Comparator, operation, the unused second slot of operation 0.
    assert_eq!(checks_to(&with_byte(good(), 26, 6)), (20, 25));
    assert_eq!(checks_to(&with_byte(good(), 27, 6)), (20, 25));
    assert_eq!(checks_to(&with_byte(good(), 33, 1)), (20, 25));
    assert_eq!(checks_to(&with_byte(good(), 37, 1)), (20, 25));
    // The same in a body fact, and a later place of it.
    assert_eq!(checks_to(&with_byte(good(), 50, 1)), (20, 49));
    assert_eq!(checks_to(&with_byte(good(), 51, 6)), (20, 49));
    assert_eq!(checks_to(&with_byte(good(), 94, 9)), (20, 49));
}

#[test]
fn a_variable_in_no_head_is_22_behind_all_of_20() {
    let unbound = with_byte(one_rule(), 29, 1);
    assert_eq!(checks_to(&unbound), (22, 25));
    assert_eq!(checks_to(&with_byte(unbound, 38, 6)), (20, 25));
    assert_eq!(checks_to(&with_byte(one_rule(), 53, 15)), (22, 49));
    let x = variable(0);
    let other = Rule::new().remove(0, &[variable(1)]).add(0, &[alone(x)]);
    let rules = [Rule::new().keep(0, &[x]), other];
    assert_eq!(checks_to(&table(&[1], &rules)), (22, 2 + 23 + 23));
}

#[test]
fn bytes_behind_the_end_are_23() {
    assert_eq!(checks_to(&[8, 0]), (23, 1));
    assert_eq!(checks_to(&[8, 8, 8]), (23, 1));
    assert_eq!(checks_to(&[one_rule(), vec![255]].concat()), (23, 96));
    // The end record's own test comes first.
    assert_eq!(checks_to(&[2, 8, 8]), (21, 1));
}

#[test]
fn goals_limits_and_buffers_are_tested_in_order() {
    let (a, len) = (table_a(), ANSWER_LEN);
    let good = goal(&[(0, &[1, 2])]);
    let refused = |goal: &[u8], limit, len| run_refused(&a, goal, limit, len);
    assert_eq!(run_refused(&[8, 8], &[0], MAX_LIMIT + 1, 0), (23, 1));
    assert_eq!(refused(&[16; 65 * 18 + 1], MAX_LIMIT + 1, 0), (32, 0));
    assert_eq!(refused(&[0; 65 * 18], MAX_LIMIT + 1, 0), (34, 0));
    assert_eq!(refused(&goal(&[(1, &[])]), MAX_LIMIT + 1, 0), (33, 0));
    assert_eq!(refused(&good, MAX_LIMIT + 1, 0), (35, 0));
    assert_eq!(refused(&good, u32::MAX, len), (35, 0));
    assert_eq!(refused(&good, MAX_LIMIT, len - 1), (36, 0));
    assert_eq!(refused(&[], 0, 0), (36, 0));
}

#[test]
fn the_first_bad_goal_fact_is_named() {
    let good = goal(&[(0, &[1, 2]), (0, &[3, 4]), (0, &[5, 6])]);
    let refused = |at: usize, value: u8| {
        run_refused(
            &table_a(),
            &with_byte(good.clone(), at, value),
            9,
            ANSWER_LEN,
        )
    };
    assert_eq!(refused(0, 17), (33, 0));
    assert_eq!(refused(18, 0), (33, 1));
    assert_eq!(refused(19, 1), (33, 1));
    assert_eq!(refused(36 + 10, 1), (33, 2));
    assert_eq!(refused(36 + 17, 255), (33, 2));
}
