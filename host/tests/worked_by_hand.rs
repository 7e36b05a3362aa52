//! The runs that document 01 works out by hand, and the classes of document 02's No. 1, on both
//! engines of this package.

use nadhirukh_host::build::{
    alone, constant, goal, of, table, table_a, variable, Rule, GREATER, LESS, QUOTIENT, REMAINDER,
    SUM, UNEQUAL,
};
use nadhirukh_host::format::{ANSWER_LEN, LONGEST_TABLE};
use nadhirukh_host::outcome::{Outcome, ResultWords};
use nadhirukh_host::{plain, reference};

/// The step limit where document 01 names none.
const LIMIT: u32 = 1_000_000;

/// Runs both engines; they agree, and the words of the result are the ones expected. The answer.
fn runs_to(table: &[u8], goal: &[u8], limit: u32, words: ResultWords) -> Vec<u8> {
    let mut answer = vec![0xA5; ANSWER_LEN];
    let mut plain_answer = answer.clone();
    let outcome = reference::run(table, goal, limit, &mut answer);
    assert_eq!(outcome.words(), words);
    assert_eq!(plain::run(table, goal, limit, &mut plain_answer), outcome);
    assert_eq!(plain_answer, answer);
    answer
}

/// The identifiers in an answer.
fn identifiers(answer: &[u8], stored: usize) -> Vec<u32> {
    let id = |record: &[u8]| u32::from_le_bytes([record[1], record[2], record[3], record[4]]);
    answer.chunks(22).take(stored).map(id).collect()
}

#[test]
fn table_a_has_72_bytes_and_is_good() {
    assert_eq!(table_a().len(), 72);
    assert_eq!(reference::check(&table_a()), Outcome::GOOD);
}

#[test]
fn empty_goal() {
    runs_to(&table_a(), &[], 0, [0, 0, 0, 0, 0, 0]);
}

#[test]
fn one_reading() {
    let goal = goal(&[(0, &[7, 310])]);
    runs_to(&table_a(), &goal, LIMIT, [0, 0, 4, 0, 1, 1]);
    runs_to(&table_a(), &goal, 4, [0, 0, 4, 0, 1, 1]);
    runs_to(&table_a(), &goal, 3, [2, 0, 3, 0, 1, 1]);
}

#[test]
fn the_same_reading_twice_leaves_identifier_1() {
    let goal = goal(&[(0, &[7, 280]), (0, &[7, 280])]);
    let answer = runs_to(&table_a(), &goal, LIMIT, [0, 0, 6, 1, 2, 1]);
    assert_eq!(identifiers(&answer, 1), [1]);
}

#[test]
fn three_readings_leave_the_lowest() {
    let goal = goal(&[(0, &[7, 310]), (0, &[7, 280]), (0, &[7, 295])]);
    let answer = runs_to(&table_a(), &goal, LIMIT, [0, 0, 11, 2, 3, 1]);
    let record = [
        17, 2, 0, 0, 0, 0, 7, 0, 0, 0, 24, 1, 0, 0, 0, 0, 0, 0, 0, 0, 0, 0,
    ];
    assert_eq!(answer[..22], record);
    assert!(answer[22..].iter().all(|byte| *byte == 0xA5));
    let weighing = reference::weigh(&table_a(), &[1], &goal);
    assert_eq!((weighing.weight, weighing.bound), (3, 16));
    assert_eq!(weighing.outcome, Outcome::GOOD);
}

#[test]
fn one_fact_propagates() {
    let x = variable(0);
    let rule = Rule::new().keep(0, &[x]).add(1, &[alone(x)]);
    let table = table(&[1, 1], &[rule]);
    runs_to(&table, &goal(&[(0, &[5])]), LIMIT, [0, 0, 6, 1, 2, 2]);
}

#[test]
fn a_pair_propagates_in_both_orders() {
    let (x, y) = (variable(0), variable(1));
    let rule = Rule::new()
        .keep(0, &[x])
        .keep(0, &[y])
        .add(1, &[alone(x), alone(y)]);
    let table = table(&[1, 2], &[rule]);
    let goal = goal(&[(0, &[1]), (0, &[2])]);
    runs_to(&table, &goal, LIMIT, [0, 0, 14, 2, 4, 4]);
}

#[test]
fn an_undefined_guard_stops_the_run_unless_a_false_one_stands_ahead() {
    let (a, b) = (variable(0), variable(1));
    let zero = alone(constant(0));
    let three = alone(constant(3));
    let goal = goal(&[(0, &[1, 0])]);
    let unguarded = Rule::new()
        .remove(0, &[a, b])
        .guard(of(QUOTIENT, a, b), GREATER, three);
    runs_to(&table(&[2], &[unguarded]), &goal, LIMIT, [3, 0, 1, 0, 1, 1]);
    let guarded = Rule::new()
        .remove(0, &[a, b])
        .guard(alone(b), UNEQUAL, zero)
        .guard(of(QUOTIENT, a, b), GREATER, three);
    runs_to(&table(&[2], &[guarded]), &goal, LIMIT, [0, 0, 3, 0, 1, 1]);
}

#[test]
fn a_count_up_ends_at_the_greatest_number() {
    let x = variable(0);
    let rule = Rule::new()
        .remove(0, &[x])
        .add(0, &[of(SUM, x, constant(1))]);
    let goal = goal(&[(0, &[2_147_483_646])]);
    runs_to(&table(&[1], &[rule]), &goal, LIMIT, [4, 0, 3, 1, 2, 1]);
}

#[test]
fn a_fail_ends_the_run_as_failed() {
    let x = variable(0);
    let rule = Rule::new()
        .remove(0, &[x])
        .guard(alone(x), LESS, alone(constant(0)))
        .fail();
    let goal = goal(&[(0, &[-1])]);
    runs_to(&table(&[1], &[rule]), &goal, LIMIT, [1, 0, 3, 1, 1, 0]);
}

#[test]
fn forty_two_facts_fit_and_forty_three_do_not() {
    let rule = Rule::new().keep(0, &[]).add(1, &[]).add(1, &[]);
    let table = table(&[0, 0], &[rule]);
    let facts = |count: usize| goal(&vec![(0, &[][..]); count]);
    runs_to(&table, &facts(42), LIMIT, [0, 0, 336, 42, 126, 126]);
    runs_to(&table, &facts(43), LIMIT, [5, 0, 340, 43, 128, 128]);
}

/// Argument i of fact n in an answer.
fn argument(answer: &[u8], n: usize, i: usize) -> i32 {
    let at = 22 * n + 6 + 4 * i;
    i32::from_le_bytes([answer[at], answer[at + 1], answer[at + 2], answer[at + 3]])
}

#[test]
fn three_degrees_below_0_and_above_are_in_different_classes_of_five() {
    let (t, five) = (variable(0), constant(5));
    let class = [of(QUOTIENT, t, five), of(REMAINDER, t, five)];
    let rule = Rule::new().remove(0, &[t]).add(1, &class);
    let goal = goal(&[(0, &[-3]), (0, &[3]), (0, &[-5])]);
    let answer = runs_to(&table(&[1, 2], &[rule]), &goal, LIMIT, [0, 0, 12, 3, 6, 3]);
    let classes = [0, 1, 2].map(|n| [argument(&answer, n, 0), argument(&answer, n, 1)]);
    assert_eq!(classes, [[-1, 2], [0, 3], [-1, 0]]);
}

#[test]
fn the_longest_table_is_good_and_no_longer_one_is() {
    for seed in 0..5 {
        let tables = nadhirukh_host::cases::edges::longest_tables(seed);
        for table in &tables {
            let outcome = reference::check(table);
            assert_eq!(plain::check(table), outcome);
            assert_eq!(outcome.number == 0, table.len() == LONGEST_TABLE);
        }
        let outcomes = tables.iter().map(|table| reference::check(table));
        let seen: Vec<_> = outcomes.map(|o| (o.number, o.place)).collect();
        let end = LONGEST_TABLE as u32;
        // A byte behind; a 65th rule; a fifth item; no end record; good.
        let expected = [
            (23, end),
            (19, end - 1),
            (19, end - 1),
            (17, end - 1),
            (0, 0),
        ];
        assert_eq!(seen, expected);
    }
}
