//! The text of examples: what it stands for, and what is refused where.

use std::fs;

use nadhirukh_host::build::{
    alone, constant, of, table, table_a, variable, Rule, AT_LEAST, AT_MOST, DIFFERENCE, EQUAL,
    GREATER, LESS, PRODUCT, QUOTIENT, REMAINDER, SUM, UNEQUAL,
};
use nadhirukh_host::ending::Ending;
use nadhirukh_host::example::Example;

/// Texts that are wrong, `NAME.chr`, and what the reader says of each, `NAME.said`.
const WRONG: &str = concat!(env!("CARGO_MANIFEST_DIR"), "/tests/wrong");

fn read(text: &str) -> Example {
    Example::read(text).expect("the text is good")
}

/// Asserts in which line and why a text is refused.
fn refused(text: &str, line: usize, message: &str) {
    let error = Example::read(text).expect_err("the text is bad");
    assert_eq!((error.place.line, error.message.as_str()), (line, message));
}

#[test]
fn the_text_of_table_a_gives_its_bytes() {
    let text = "mu/2. lower @ mu(S, A) \\ mu(S, B) <=> A =< B | true.";
    assert_eq!(read(text).table, table_a());
    let spread = "mu / 2\n. # two places\n mu(S,A)\\mu(S,B)<=>A=<B|\ntrue\n.";
    assert_eq!(read(spread).table, table_a());
}

#[test]
fn an_empty_text_is_the_empty_table() {
    assert_eq!(read("").table, [8]);
    assert_eq!(read("# nothing\n").table, [8]);
}

#[test]
fn every_operation_and_comparator() {
    let (a, b) = (variable(0), variable(1));
    let rule = |comparator, operation| {
        let rule = Rule::new().remove(0, &[a, b]);
        let rule = rule.guard(alone(a), comparator, of(operation, a, b));
        rule.add(0, &[of(operation, b, constant(-1)), alone(constant(2))])
    };
    let rules = [
        rule(EQUAL, SUM),
        rule(UNEQUAL, DIFFERENCE),
        rule(LESS, PRODUCT),
        rule(AT_MOST, QUOTIENT),
        rule(GREATER, REMAINDER),
        rule(AT_LEAST, SUM),
    ];
    let mut text = "p/2.".to_string();
    let marks = ["=", "\\=", "<", "=<", ">", ">="].iter();
    for (comparator, operation) in marks.zip(["+", "-", "*", "/", "%", "+"]) {
        text += &format!(
            "p(A, B) <=> A {c} A {o} B | p(B {o} -1, 2).",
            c = comparator,
            o = operation
        );
    }
    assert_eq!(read(&text).table, table(&[2], &rules));
}

#[test]
fn a_minus_behind_a_slot_is_a_difference() {
    let x = variable(0);
    let rule = Rule::new().remove(0, &[x]);
    let rule = rule.guard(
        of(DIFFERENCE, x, constant(1)),
        EQUAL,
        of(DIFFERENCE, constant(-1), constant(-2)),
    );
    assert_eq!(
        read("p/1. p(X)<=>X-1=-1--2|true.").table,
        table(&[1], &[rule])
    );
}

#[test]
fn kept_heads_removed_heads_constants_and_fails() {
    let x = variable(0);
    let lowest = constant(i32::MIN);
    let rules = [
        Rule::new().keep(0, &[]).keep(1, &[x]).add(0, &[]).fail(),
        Rule::new().remove(1, &[lowest]).remove(1, &[lowest]).fail(),
    ];
    let text = "on/0. p/1. on, p(X) ==> on, fail. p(-2147483648), p(-2147483648) <=> fail.";
    assert_eq!(read(text).table, table(&[0, 1], &rules));
}

#[test]
fn goals_and_random_goals() {
    let example = read("on/0. p/1. goal p(-3), on leaves on. goal true ends 3. random 2 p(4..6).");
    let told = |facts: &[_]| example.tell_all(facts);
    assert_eq!(told(&example.goals[0].goal), "p(-3), on");
    assert_eq!(told(&example.goals[0].ending.facts), "on");
    assert_eq!(told(&example.goals[1].goal), "true");
    assert_eq!(example.goals[1].ending, Ending::new(3, Vec::new()));
    let goals = example.all_goals(50);
    assert_eq!(goals.len(), 52);
    assert_eq!(goals, example.all_goals(50));
    for goal in &goals[2..] {
        assert_eq!(goal.len(), 2);
        assert!(goal.iter().all(|fact| (4..=6).contains(&fact.arguments[0])));
    }
}

#[test]
fn a_range_is_no_fraction() {
    let example = read("p/1. random 0..20 p(-3..8),1..2 p(0).");
    let ranges = example
        .draws
        .iter()
        .map(|draw| (draw.count.first, draw.count.last));
    assert_eq!(ranges.collect::<Vec<_>>(), [(0, 20), (1, 2)]);
}

#[test]
fn words_that_do_not_fit_are_named_with_their_line() {
    refused("p/1.\n p(X) <=> true", 2, "expected '.' behind true");
    refused("p/1. p(X) <=> true q", 1, "expected '.', not q");
    refused(
        "p/1.\n\n p(X) <=> X | true.",
        3,
        "expected a comparator, not '|'",
    );
    refused(
        "p/1. p(X) \\ p(Y) ==> true.",
        1,
        "expected '<=>', not '==>'",
    );
    refused("p/1.\n& <=> true.", 2, "no word begins with '&'");
    refused("p/1. goal p(1).", 1, "expected 'leaves' or 'ends', not '.'");
}

#[test]
fn a_place_is_a_line_and_a_column_in_characters() {
    let error = Example::read("p/1. # é\n  p(X) <=> X > Y | true.").expect_err("Y is bad");
    let told = "line 2, column 16: Y stands in no head";
    assert_eq!(error.to_string(), told);
    let error = Example::read("\u{a0}é/1.").expect_err("é is bad");
    assert_eq!((error.place.line, error.place.column), (1, 2));
}

#[test]
fn what_the_engines_refuse_is_told_at_its_statement() {
    let symbols: String = (0..33).map(|n| format!("p{}/0.\n", n)).collect();
    let used = symbols.clone() + "p0 <=> p32.\n";
    for text in [symbols, used] {
        refused(&text, 33, "one symbol too many, a table has at most 32");
    }
    let goal = "p/0.\ngoal p".to_string() + &", p".repeat(64) + "\nleaves true.";
    refused(&goal, 2, "a goal of more than 64 facts");
    let heads = "p/4. p(A,B,C,D), p(E,F,G,H), p(I,J,K,L), p(M,N,O,P) <=> true.";
    assert_eq!(read(heads).goals.len(), 0);
}

/// The names of the stored texts that are wrong, or of what the reader says of them.
fn stored(ending: &str) -> Vec<String> {
    let folder = fs::read_dir(WRONG).expect("the folder can be read");
    let paths = folder.map(|entry| entry.expect("the folder can be read").path());
    let mut names: Vec<String> = paths
        .filter(|path| path.extension().map_or(false, |found| found == ending))
        .map(|path| {
            path.file_stem()
                .unwrap_or_default()
                .to_string_lossy()
                .into()
        })
        .collect();
    names.sort();
    names
}

#[test]
fn each_stored_text_is_refused_in_the_stored_words() {
    let names = stored("chr");
    assert!(!names.is_empty());
    assert_eq!(names, stored("said"));
    let file = |name: &str, ending: &str| {
        let path = format!("{}/{}.{}", WRONG, name, ending);
        fs::read_to_string(path).expect("the file can be read")
    };
    for name in names {
        let text = file(&name, "chr");
        assert!(
            text.starts_with("# "),
            "{} does not say what was done",
            name
        );
        let said = Example::read(&text).map(|_| "nothing".to_string());
        let said = said.unwrap_or_else(|error| error.to_string());
        assert_eq!(said + "\n", file(&name, "said"), "{}", name);
    }
}
