//! The names of include/nadhirukh.h, all of them, have the values that the second engine goes by.

use std::collections::BTreeMap;

use nadhirukh_host::build::{alone, constant, goal_fact, table, variable};
use nadhirukh_host::build::{
    AT_LEAST, AT_MOST, DIFFERENCE, EQUAL, GREATER, LESS, PRODUCT, QUOTIENT, REMAINDER, SUM, UNEQUAL,
};
use nadhirukh_host::format::*;
use nadhirukh_host::header::definitions;
use nadhirukh_host::outcome::{self, Outcome, BOUND_WORDS, RESULT_WORDS};
use nadhirukh_host::{reference, words};

type Names = BTreeMap<String, usize>;

/// Names with one word before them.
fn named(before: &str, names: &[(&str, usize)]) -> Vec<(String, usize)> {
    let name = |(name, value): &(&str, usize)| (format!("{}{}", before, name), *value);
    names.iter().map(name).collect()
}

/// Names that count from 0.
fn counted(before: &str, names: &[&str]) -> Vec<(String, usize)> {
    let name = |(value, name): (usize, &&str)| (format!("{}{}", before, name), value);
    names.iter().enumerate().map(name).collect()
}

/// Where the second engine has each word, seen in the words of a result in which they all differ.
fn words_of_a_result() -> Vec<(String, usize)> {
    let result = Outcome {
        number: 10,
        place: 11,
        steps: 12,
        firings: 13,
        identifiers: 14,
        stored: 15,
    };
    let at = |word: u32| result.words().iter().position(|one| *one == word).unwrap();
    let names: [(&str, usize); RESULT_WORDS] = [
        ("NUMBER", at(result.number)),
        ("PLACE", at(result.place)),
        ("STEPS", at(result.steps)),
        ("FIRINGS", at(result.firings)),
        ("IDENTIFIERS", at(result.identifiers)),
        ("STORED", at(result.stored)),
    ];
    let bound: [&str; BOUND_WORDS] = ["WEIGHT", "STEPS"];
    [
        named("", &names),
        named("", &[("RESULT", RESULT_WORDS), ("BOUND", BOUND_WORDS)]),
        counted("BOUND_", &bound),
    ]
    .concat()
}

/// In the order of documents 01 and 02, which is that of the numbers. Which name belongs to which is said here alone:
/// the second engine has numbers for its endings, and no names.
fn numbers() -> Vec<(String, usize)> {
    let names = [
        "DONE",
        "FAILED",
        "STEP_LIMIT",
        "GUARD_UNDEFINED",
        "BODY_UNDEFINED",
        "STORE_FULL",
        "STACK_FULL",
        "HISTORY_FULL",
        "UNKNOWN_KIND",
        "CUT_SHORT",
        "OUT_OF_ORDER",
        "ONE_TOO_MANY",
        "BAD_FIELD",
        "NO_HEAD",
        "VARIABLE_IN_NO_HEAD",
        "BYTES_AFTER_END",
        "GOAL_CUT",
        "BAD_GOAL_FACT",
        "GOAL_TOO_LONG",
        "LIMIT_TOO_HIGH",
        "ANSWER_TOO_SHORT",
        "WEIGHT_COUNT",
        "ZERO_WEIGHT",
        "NO_WEIGHT_LOST",
        "TEXT_TOO_LONG",
        "NO_TOKEN",
        "NOT_IN_GRAMMAR",
        "NO_ROOM",
    ];
    let numbers = outcome::numbers();
    assert_eq!(names.len(), numbers.len());
    let name = |(name, number): (&&str, &u32)| (name.to_string(), *number as usize);
    names.iter().zip(&numbers).map(name).collect()
}

fn limits() -> Vec<(String, usize)> {
    let names = [
        ("MAX_TABLE", LONGEST_TABLE),
        ("MAX_TEXT", MAX_TEXT),
        ("MAX_SYMBOLS", MAX_SYMBOLS),
        ("MAX_RULES", MAX_RULES),
        ("MAX_GOAL_FACTS", MAX_GOAL),
        ("MAX_GOAL", MAX_GOAL * GOAL_RECORD_LEN),
        ("MAX_STORED", STORE),
        ("MAX_LIMIT", MAX_LIMIT as usize),
        ("MIN_ANSWER", ANSWER_LEN),
    ];
    named("", &names)
}

fn kinds() -> Vec<(String, usize)> {
    let names = [
        ("SYMBOL", SYMBOL),
        ("RULE", RULE),
        ("KEPT_HEAD", KEPT),
        ("REMOVED_HEAD", REMOVED),
        ("GUARD", GUARD),
        ("BODY_FACT", BODY_FACT),
        ("BODY_FAIL", BODY_FAIL),
        ("END", END),
        ("GOAL_FACT", GOAL_FACT),
        ("STORED_FACT", STORED_FACT),
    ];
    named(
        "KIND_",
        &names.map(|(name, kind)| (name, usize::from(kind))),
    )
}

fn slots_and_guards() -> Vec<(String, usize)> {
    let expression = alone(constant(7));
    let tags = [
        ("UNUSED", expression[1 + SLOT_LEN]),
        ("CONSTANT", constant(7)[0]),
        ("VARIABLE", variable(7)[0]),
    ];
    let operations = [
        ("ALONE", expression[0]),
        ("SUM", SUM),
        ("DIFFERENCE", DIFFERENCE),
        ("PRODUCT", PRODUCT),
        ("QUOTIENT", QUOTIENT),
        ("REMAINDER", REMAINDER),
    ];
    let comparators = [
        ("EQUAL", EQUAL),
        ("UNEQUAL", UNEQUAL),
        ("LESS", LESS),
        ("AT_MOST", AT_MOST),
        ("GREATER", GREATER),
        ("AT_LEAST", AT_LEAST),
    ];
    let byte = |(name, byte): (&'static str, u8)| (name, usize::from(byte));
    [
        named("TAG_", &tags.map(byte)),
        named("OPERATION_", &operations.map(byte)),
        named("COMPARATOR_", &comparators.map(byte)),
    ]
    .concat()
}

/// Where the parts of a goal fact and of a stored one begin, found in the bytes of one that the second
/// engine stores: its identifier is 1, its symbol 3 and its argument 7.
fn parts_of_facts() -> Vec<(String, usize)> {
    let fact = goal_fact(3, &[7]);
    let mut answer = vec![0; ANSWER_LEN];
    let outcome = reference::run(&table(&[0, 0, 0, 1], &[]), &fact, MAX_LIMIT, &mut answer);
    assert_eq!((outcome.number, outcome.stored), (0, 1));
    let at = |bytes: &[u8], part: u8| bytes.iter().position(|byte| *byte == part).unwrap();
    let goal = [
        ("LEN", fact.len()),
        ("SYMBOL", at(&fact, 3)),
        ("ARGUMENTS", at(&fact, 7)),
    ];
    let stored = [
        ("LEN", STORED_RECORD_LEN),
        ("IDENTIFIER", at(&answer, 1)),
        ("SYMBOL", at(&answer, 3)),
        ("ARGUMENTS", at(&answer, 7)),
    ];
    [named("GOAL_FACT_", &goal), named("STORED_FACT_", &stored)].concat()
}

#[test]
fn every_name_has_its_value() {
    let mut found: Names = BTreeMap::new();
    for definition in definitions() {
        let before = found.insert(definition.name.to_string(), definition.value);
        assert_eq!(before, None, "{} is defined twice", definition.name);
    }
    // The second engine has no version. Document 02's first request raised it to 2.
    let version = found.remove("VERSION").expect("the header has a version");
    assert!(version >= 2, "version {} was there before", version);
    let wanted = [
        words_of_a_result(),
        numbers(),
        limits(),
        kinds(),
        slots_and_guards(),
        parts_of_facts(),
    ];
    assert_eq!(found, wanted.concat().into_iter().collect::<Names>());
}

#[test]
fn every_number_and_nothing_else_says_what_its_place_is() {
    let told = definitions().filter(|definition| definition.ending().is_some());
    let told: Vec<u32> = told.map(|definition| definition.value as u32).collect();
    assert_eq!(told, outcome::numbers());
}

#[test]
fn the_place_of_each_number_is_what_the_documents_have_there() {
    for number in outcome::numbers() {
        let place = match number {
            3 | 4 | 6 | 7 | 42 => Some("rule"),
            16..=23 | 49 | 50 => Some("byte"),
            33 => Some("goal fact"),
            41 => Some("symbol"),
            _ => None,
        };
        assert_eq!(words::place(number), place, "{}", number);
    }
}
