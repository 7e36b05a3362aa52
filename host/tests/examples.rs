//! The examples: both engines of this package leave what each example says, and depend on the
//! order of the goal only where the example says so.

use nadhirukh_host::cases::random::Random;
use nadhirukh_host::ending::Ending;
use nadhirukh_host::example::{
    self, draw, goal_bytes, in_folder, Example, ANY_ORDER, BY_GOAL, BY_ORDER,
};
use nadhirukh_host::format::{ANSWER_LEN, LONGEST_TABLE, MAX_TEXT};
use nadhirukh_host::outcome::{Outcome, Written};
use nadhirukh_host::reference::state::Fact;
use nadhirukh_host::{plain, reference};

/// The step limit of the program *run*.
const LIMIT: u32 = 1_000_000;
/// How many random goals each example is run on.
const RANDOM: u64 = 200;

/// The ending of a goal, on which both engines agree to the byte.
fn ending(example: &Example, goal: &[Fact]) -> Ending {
    let goal = goal_bytes(goal);
    let mut answer = vec![0xA5; ANSWER_LEN];
    let mut plain_answer = answer.clone();
    let outcome = reference::run(&example.table, &goal, LIMIT, &mut answer);
    let plain_outcome = plain::run(&example.table, &goal, LIMIT, &mut plain_answer);
    assert_eq!(plain_outcome, outcome);
    assert_eq!(plain_answer, answer);
    Ending::of_run(&outcome, &answer)
}

/// A goal and its ending, as the text of an example has them.
fn tell(example: &Example, goal: &[Fact], ending: &Ending) -> String {
    let goal = example.tell_all(goal);
    match ending.number {
        0 => format!("goal {} leaves {}.", goal, example.tell_all(&ending.facts)),
        number => format!("goal {} ends {}.", goal, number),
    }
}

/// A goal's facts, whatever their order.
fn facts(goal: &[Fact]) -> Vec<Fact> {
    let mut facts = goal.to_vec();
    facts.sort_by_key(|fact| (fact.symbol, fact.arguments));
    facts
}

/// Runs a test on each example of a folder, under its name.
fn each(folder: &str, test: impl Fn(&str, &Example)) {
    for (name, example) in in_folder(folder).expect("the examples can be read") {
        test(&name, &example);
    }
}

#[test]
fn there_are_many_and_each_has_goals_of_both_sorts() {
    let examples = in_folder(ANY_ORDER).expect("the examples can be read");
    assert!(examples.len() >= 14);
    each(ANY_ORDER, |name, example| {
        assert!(!example.goals.is_empty(), "{}", name);
        assert!(!example.draws.is_empty(), "{}", name);
    });
}

#[test]
fn stored_goals_end_as_the_examples_say() {
    let test = |name: &str, example: &Example| {
        for stored in &example.goals {
            let found = ending(example, &stored.goal);
            let told = tell(example, &stored.goal, &found);
            assert!(found == stored.ending, "{} ends otherwise:\n{}", name, told);
        }
    };
    each(ANY_ORDER, test);
    each(BY_ORDER, test);
    each(BY_GOAL, test);
}

#[test]
fn the_same_facts_in_another_order_end_unlike() {
    let examples = in_folder(BY_GOAL).expect("the examples can be read");
    assert!(!examples.is_empty());
    each(BY_GOAL, |name, example| {
        assert!(example.goals.len() > 1, "{}", name);
        for (at, stored) in example.goals.iter().enumerate() {
            let told = tell(example, &stored.goal, &stored.ending);
            for other in &example.goals[..at] {
                let alike = facts(&stored.goal) == facts(&other.goal);
                assert!(alike, "{}, other facts:\n{}", name, told);
                assert!(stored.ending != other.ending, "{}:\n{}", name, told);
            }
        }
    });
}

#[test]
fn random_goals_end_alike_in_every_order() {
    each(ANY_ORDER, |name, example| {
        for seed in 0..RANDOM {
            let goal = draw::goal(&example.draws, seed);
            let mut shuffled = goal.clone();
            draw::shuffle(&mut shuffled, &mut Random::new(!seed));
            let found = ending(example, &goal);
            let other = ending(example, &shuffled);
            let told = tell(example, &goal, &found);
            let retold = tell(example, &shuffled, &other);
            assert!(
                found == other,
                "{} depends on order:\n{}\n{}",
                name,
                told,
                retold
            );
            // Running out of steps or room is no matter of the rules.
            assert!([0, 1, 3, 4].contains(&found.number), "{}: {}", name, told);
        }
    });
}

/// The bytes that a call writes to a buffer of such a length.
fn written(len: usize, call: impl FnOnce(&mut [u8]) -> Written) -> Vec<u8> {
    let mut room = vec![0xA5; len];
    let written = call(&mut room);
    assert_eq!(written.outcome, Outcome::GOOD);
    room.truncate(written.length as usize);
    room
}

/// The text of a table, on which both engines agree to the byte.
fn print(table: &[u8]) -> Vec<u8> {
    let text = written(MAX_TEXT, |room| reference::print_text(table, room));
    let work = &mut Vec::new();
    let plain_text = written(MAX_TEXT, |room| plain::text::print_text(table, room, work));
    assert_eq!(plain_text, text);
    text
}

/// The table of a text, on which both engines agree to the byte.
fn read(text: &[u8]) -> Vec<u8> {
    let table = written(LONGEST_TABLE, |room| reference::read_text(text, room));
    let work = &mut Vec::new();
    let plain_table = written(LONGEST_TABLE, |room| {
        plain::text::read_text(text, room, work)
    });
    assert_eq!(plain_table, table);
    table
}

#[test]
fn tables_printed_read_and_printed_again_are_the_same() {
    let examples = example::all().expect("the examples can be read");
    assert!(examples.len() >= 25, "{}", examples.len());
    for (name, example) in examples {
        let text = print(&example.table);
        let table = read(&text);
        assert_eq!(table, example.table, "{}", name);
        assert_eq!(print(&table), text, "{}", name);
    }
}
