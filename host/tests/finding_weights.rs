//! Looking for weights: its refusals, worked searches, and what it promises about weighing.

use nadhirukh_host::build::{table, table_a, Rule};
use nadhirukh_host::cases::finding::{self, Bodies};
use nadhirukh_host::cases::random::Random;
use nadhirukh_host::cases::{edges, Plan};
use nadhirukh_host::outcome::{findings, COUNTS_FROM, PAST_NUMBERS, RESULT_WORDS};
use nadhirukh_host::reference;

/// What a buffer of weights holds before a call.
const HELD: u8 = 0;

/// The number, the place, and the buffer after a call that lends so many bytes.
fn finds(table: &[u8], len: usize) -> (u32, u32, Vec<u8>) {
    let mut buffer = vec![HELD; len];
    let outcome = reference::find_weights(table, &mut buffer);
    assert_eq!(
        outcome.words()[COUNTS_FROM..],
        [0; RESULT_WORDS - COUNTS_FROM]
    );
    (outcome.number, outcome.place, buffer)
}

/// A rule over symbols without arguments.
fn rule(removed: &[u8], body: &[u8]) -> Rule {
    let heads = removed.iter();
    let rule = heads.fold(Rule::new(), |rule, symbol| rule.remove(*symbol, &[]));
    body.iter()
        .fold(rule, |rule, symbol| rule.add(*symbol, &[]))
}

/// The search in a table of so many symbols without arguments.
fn finds_in(symbols: usize, rules: &[Rule]) -> (u32, u32, Vec<u8>) {
    finds(&table(&vec![0; symbols], rules), symbols)
}

#[test]
fn rules_that_lose_weight_already_leave_ones() {
    assert_eq!(finds(&table_a(), 1), (0, 0, vec![1]));
    assert_eq!(finds(&[8], 0), (0, 0, vec![]));
    assert_eq!(finds_in(3, &[]), (0, 0, vec![1; 3]));
    // A fail weighs nothing.
    let failing = Rule::new().remove(0, &[]).fail().fail();
    assert_eq!(finds_in(1, &[failing]), (0, 0, vec![1]));
}

#[test]
fn a_rule_is_raised_by_what_it_lacks() {
    // a <=> b, b
    assert_eq!(finds_in(2, &[rule(&[0], &[1, 1])]), (0, 0, vec![3, 1]));
    // a, a <=> b, b, b lacks 2, although 1 would do: a stands twice.
    assert_eq!(
        finds_in(2, &[rule(&[0, 0], &[1, 1, 1])]),
        (0, 0, vec![3, 1])
    );
    // The first removed head is raised, here b.
    assert_eq!(
        finds_in(3, &[rule(&[1, 0], &[2, 2])]),
        (0, 0, vec![1, 2, 1])
    );
    // A kept head weighs nothing and is not raised.
    let kept = Rule::new().keep(0, &[]).remove(1, &[]).add(0, &[]);
    assert_eq!(finds_in(2, &[kept]), (0, 0, vec![1, 2]));
}

#[test]
fn a_rule_that_cannot_be_raised_is_the_place() {
    // a, b <=> a, a: the weights 1 and 2 would do, and raising a alone finds none.
    assert_eq!(
        finds_in(2, &[rule(&[0, 1], &[0, 0])]),
        (42, 0, vec![HELD; 2])
    );
    // A rule that removes nothing, behind one that is good and before one that is not reached.
    let keeps = Rule::new().keep(0, &[]);
    let rules = [rule(&[0], &[]), keeps, rule(&[0], &[1])];
    assert_eq!(finds_in(2, &rules), (42, 1, vec![HELD; 2]));
    assert_eq!(finds_in(1, &[rule(&[0], &[0])]), (42, 0, vec![HELD]));
}

#[test]
fn tests_come_in_order_and_a_refusal_keeps_the_buffer() {
    assert_eq!(finds(&[], 1), (17, 0, vec![HELD]));
    assert_eq!(finds(&table_a(), 0), (40, 0, vec![]));
    assert_eq!(finds(&table_a(), 2), (40, 0, vec![HELD; 2]));
    // 40 before 42.
    let heavy = table(&[0], &[rule(&[0], &[0])]);
    assert_eq!(finds(&heavy, 33), (40, 0, vec![HELD; 33]));
    for table in edges::tables().iter().chain(&edges::longest_tables(1)) {
        let checked = reference::check(table);
        if checked.number != 0 {
            let refused = (checked.number, checked.place, vec![HELD]);
            assert_eq!(finds(table, 1), refused, "{:?}", table);
        }
    }
}

#[test]
fn a_chain_gives_each_symbol_one_more() {
    let weights: Vec<u8> = (1..=32).collect();
    let mut rules = finding::chain(32, 1);
    assert_eq!(finds_in(32, &rules), (0, 0, weights.clone()));
    rules.reverse();
    assert_eq!(finds_in(32, &rules), (0, 0, weights));
}

#[test]
fn a_weight_reaches_255_and_does_not_pass_it() {
    let doubled = vec![1, 3, 7, 15, 31, 63, 127, 255];
    assert_eq!(finds_in(8, &finding::chain(8, 2)), (0, 0, doubled));
    // The ninth symbol's rule comes first, and it is the one that would need 511.
    assert_eq!(finds_in(9, &finding::chain(9, 2)), (42, 0, vec![HELD; 9]));
}

#[test]
fn a_ring_has_no_weights() {
    for symbols in [1, 2, 3, 32] {
        let count = usize::from(symbols);
        for rules in [count, 64] {
            let (number, place, buffer) = finds_in(count, &finding::ring(symbols, rules));
            assert_eq!((number, buffer), (42, vec![HELD; count]));
            // The rules of a ring stand over and over; the first one of a symbol is met.
            assert!(place < u32::from(symbols));
        }
    }
}

#[test]
fn weights_found_are_accepted_by_weighing() {
    let mut seen = [0_u32; PAST_NUMBERS];
    for seed in 0..8_000 {
        let case = finding::case(&mut Random::new(seed));
        let (number, place, found) = finds(&case.table, case.weights.len());
        seen[number as usize] += 1;
        let weighed = reference::weigh(&case.table, &found, &[]).outcome;
        // A buffer that is kept is full of zeros, and weighing's 41 comes before its 42.
        let expected = match number {
            42 => (41, 0),
            _ => (number, place),
        };
        assert_eq!((weighed.number, weighed.place), expected, "seed {}", seed);
    }
    for number in findings() {
        let count = seen[number as usize];
        assert!(count >= 20, "number {} occurred {} times", number, count);
    }
}

/// Every row of weights from 1 to `most`, for so many symbols.
fn all_weights(symbols: usize, most: u8) -> Vec<Vec<u8>> {
    let mut rows = vec![Vec::new()];
    for _ in 0..symbols {
        let longer = |row: &Vec<u8>| {
            let row = row.clone();
            (1..=most).map(move |weight| [row.clone(), vec![weight]].concat())
        };
        rows = rows.iter().flat_map(longer).collect();
    }
    rows
}

/// A table of at most four symbols in which each rule has one removed head.
fn small_plan(random: &mut Random) -> Plan {
    loop {
        let bodies = *random.pick(&[Bodies::Any, Bodies::Lower]);
        let plan = finding::one_removed(random, bodies);
        if plan.arities.len() <= 4 {
            return plan;
        }
    }
}

#[test]
fn with_one_removed_head_each_the_least_weights_are_found() {
    let (mut some, mut none) = (0, 0);
    for seed in 0..400 {
        let plan = small_plan(&mut Random::new(seed));
        let table = plan.bytes();
        let (number, _, found) = finds(&table, plan.arities.len());
        let good = |row: &Vec<u8>| reference::weigh(&table, row, &[]).outcome.number == 0;
        let rows = all_weights(plan.arities.len(), 8);
        for row in rows.iter().filter(|row| good(row)) {
            assert_eq!(number, 0, "seed {}: {:?} would do", seed, row);
            let least = found.iter().zip(row).all(|(least, weight)| least <= weight);
            assert!(
                least,
                "seed {}: {:?} is smaller than {:?}",
                seed, row, found
            );
        }
        some += u32::from(number == 0);
        none += u32::from(number != 0);
    }
    assert!(some > 100 && none > 50, "{} found, {} not", some, none);
}
