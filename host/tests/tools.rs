//! What the programs say and the status that they end with: `show` on every ending, and all of
//! them where an argument or a file is not as it should be.

use std::fs;
use std::path::{Path, PathBuf};
use std::process::Command;

use nadhirukh_host::build::{
    alone, constant, goal, of, table, table_a, variable, Rule, GREATER, LESS, QUOTIENT, SUM,
};
use nadhirukh_host::outcome::numbers;
use nadhirukh_host::words;

const SHOW: &str = env!("CARGO_BIN_EXE_show");
const EXAMPLE: &str = env!("CARGO_BIN_EXE_example");
const CALL_CASES: &str = env!("CARGO_BIN_EXE_call_cases");
const LINES: &str = env!("CARGO_BIN_EXE_lines");
const COMPARE: &str = env!("CARGO_BIN_EXE_compare");
const SWI: &str = env!("CARGO_BIN_EXE_swi");

/// What came of starting a program.
#[derive(Debug, PartialEq)]
struct Ended {
    status: Option<i32>,
    printed: String,
    said: String,
}

fn start(program: &str, arguments: &[&str]) -> Ended {
    let output = Command::new(program).args(arguments).output();
    let output = output.expect("the program starts");
    let text = |bytes| String::from_utf8(bytes).expect("text");
    Ended {
        status: output.status.code(),
        printed: text(output.stdout),
        said: text(output.stderr),
    }
}

/// Asserts that a program ends with this status, prints nothing, and says one line with these
/// words.
fn refuses(program: &str, arguments: &[&str], status: i32, words: &[&str]) {
    let ended = start(program, arguments);
    assert_eq!((ended.status, ended.printed.as_str()), (Some(status), ""));
    assert_eq!(ended.said.lines().count(), 1, "{}", ended.said);
    for word in words {
        assert!(
            ended.said.contains(word),
            "{} is not in {}",
            word,
            ended.said
        );
    }
}

/// A path in a folder of these tests' own.
fn path(name: &str) -> PathBuf {
    Path::new(env!("CARGO_TARGET_TMPDIR")).join(name)
}

/// A file with these bytes, under a name of its own.
fn file(name: &str, bytes: &[u8]) -> String {
    let path = path(name);
    fs::write(&path, bytes).expect("the file can be written");
    path.to_string_lossy().into()
}

/// Shows a table and a goal, which are kept under a name of their own.
fn show(name: &str, table: Vec<u8>, goal: Vec<u8>, limit: &[&str]) -> Ended {
    let file = file(name, &[table, goal].concat());
    let ended = start(SHOW, &[&[file.as_str()], limit].concat());
    assert_eq!(ended.said, "");
    ended
}

/// Asserts how a run ends that is not done: its last lines, and that it is printed in short.
fn ends(name: &str, table: Vec<u8>, goal: Vec<u8>, lines: &str) {
    let ended = show(name, table, goal, &[]);
    assert_eq!(ended.status, Some(1));
    let printed = ended.printed;
    assert!(printed.contains(lines), "{} is not in {}", lines, printed);
    assert!(printed.lines().count() < 300);
}

/// So many facts of symbol 0, with the arguments 1, 2, ..
fn counted(facts: i32) -> Vec<u8> {
    let each = (1..=facts).map(|number| goal(&[(0, &[number])]));
    each.collect::<Vec<_>>().concat()
}

/// n(X) <=> n(X + step), which never ends by itself.
fn counting(step: i32) -> Vec<u8> {
    let x = variable(0);
    let next = of(SUM, x, constant(step));
    table(&[1], &[Rule::new().remove(0, &[x]).add(0, &[next])])
}

#[test]
fn show_prints_the_trace_of_the_guide() {
    let readings = goal(&[(0, &[7, 310]), (0, &[7, 280]), (0, &[7, 295])]);
    let ended = show("readings", table_a(), readings, &[]);
    let lines = "\
step  what happens                              stack store history
   1  Activate s0(7,310) as 1                      3     1       0
   2  Default 1 past occurrence 1                  3     1       0
   3  Default 1 past occurrence 2                  3     1       0
   4  Drop 1                                       2     1       0
   5  Activate s0(7,280) as 2                      2     2       0
   6  Default 2 past occurrence 1                  2     2       0
   7  Propagate rule 0: [2] \\ [1] -> []            2     1       0
   8  Default 2 past occurrence 2                  2     1       0
   9  Drop 2                                       1     1       0
  10  Activate s0(7,295) as 3                      1     2       0
  11  Simplify rule 0: [2] \\ [3] -> []             0     1       0

rule 0 fired 2 times
done: the answer has the facts stored
0 0 11 2 3 1
2 s0(7,280)
";
    assert_eq!((ended.status, ended.printed.as_str()), (Some(0), lines));
}

#[test]
fn show_ends_with_status_1_where_a_rule_stops_the_run() {
    let (x, y) = (variable(0), variable(1));
    let negative = Rule::new().remove(0, &[x]);
    let negative = negative.guard(alone(x), LESS, alone(constant(0))).fail();
    let failed = "rule 0 fired 1 time\na rule said fail\n1 0 3 1 1 0\n";
    ends(
        "failed",
        table(&[1], &[negative]),
        goal(&[(0, &[-1])]),
        failed,
    );
    let quotient = of(QUOTIENT, x, y);
    let divide = Rule::new().remove(0, &[x, y]);
    let divide = divide.guard(quotient, GREATER, alone(constant(3)));
    let guard = "a guard has no value: rule 0\n3 0 1 0 1 1\n1 s0(1,0)\n";
    ends(
        "guard",
        table(&[2], &[divide]),
        goal(&[(0, &[1, 0])]),
        guard,
    );
    let body = "an argument of a body fact has no value: rule 0\n4 0 3 1 2 1\n";
    ends("body", counting(1), goal(&[(0, &[i32::MAX - 1])]), body);
}

#[test]
fn show_ends_with_status_1_where_there_is_no_room() {
    let (x, y) = (variable(0), variable(1));
    let twice = Rule::new().keep(0, &[x]).add(1, &[]).add(1, &[]);
    let store = "the store is full: a fact more than 128\n5 0 340 43 128 128\n";
    ends("store", table(&[1, 0], &[twice]), counted(43), store);
    let next = of(SUM, x, constant(1));
    let grow = Rule::new().remove(0, &[x]).add(0, &[next]).add(0, &[next]);
    let stack =
        "the stack is full: more than 256 entries after this firing: rule 0\n6 0 511 255 256 1\n";
    ends("stack", table(&[1], &[grow]), counted(1), stack);
    let pairs = Rule::new().keep(0, &[x]).keep(0, &[y]);
    let history = "the history is full: more than 256 entries after this firing: rule 0\n7 0 ";
    ends("history", table(&[1], &[pairs]), counted(17), history);
}

#[test]
fn show_prints_the_first_and_the_last_steps_of_a_run_that_goes_on() {
    let goal = || goal(&[(0, &[5])]);
    let ended = show("forever", counting(0), goal(), &[]);
    assert_eq!(ended.status, Some(1));
    let lines: Vec<&str> = ended.printed.lines().collect();
    assert_eq!(lines.len(), 1 + 100 + 1 + 20 + 4);
    assert!(lines[100].starts_with(" 100  Simplify rule 0: [] \\ [50] -> [s0(5)] "));
    assert_eq!(lines[101], "      .. 999880 steps left out");
    assert!(lines[102].starts_with("999981  Activate s0(5) as 499991 "));
    let behind = [
        "",
        "rule 0 fired 500000 times",
        "the step limit is used up",
        "2 0 1000000 500000 500000 0",
    ];
    assert_eq!(lines[122..], behind);
    let printed = |limit| show("bounded", counting(0), goal(), &[limit]).printed;
    assert!(!printed("120").contains("left out"));
    assert!(printed("121").contains("\n      .. 1 step left out\n"));
}

#[test]
fn show_says_why_a_run_is_refused() {
    let heads = (0..5).fold(Rule::new(), |rule, _| rule.keep(0, &[]));
    let heads = table(&[0], &[heads]);
    let refused = |name, table, goal, limit: &[&str], lines: &str| {
        let ended = show(name, table, goal, limit);
        assert_eq!((ended.status, ended.printed.as_str()), (Some(1), lines));
    };
    let none = Vec::new;
    let many = "one head too many, a rule has at most 4: byte 91\n19 91 0 0 0 0\n";
    refused("heads", heads, none(), &[], many);
    let cut = "a record cut short, or no end record: byte 71\n17 71 0 0 0 0\n";
    refused("cut", table_a()[..71].to_vec(), none(), &[], cut);
    let undeclared = goal(&[(0, &[7, 310]), (1, &[])]);
    let fact = "a goal fact with a bad kind, symbol or later place: goal fact 1\n33 1 0 0 0 0\n";
    refused("fact", table_a(), undeclared, &[], fact);
    let limit = "a step limit above 20,000,000\n35 0 0 0 0 0\n";
    refused("limit", table_a(), none(), &["20000001"], limit);
}

#[test]
fn a_program_says_in_one_line_how_it_is_started() {
    for (program, usage) in [
        (SHOW, "usage: show FILE [LIMIT]"),
        (EXAMPLE, "usage: example FILE [N]"),
        (CALL_CASES, "usage: call_cases FOLDER [GROUP...]"),
        (LINES, "usage: lines FOLDER"),
        (COMPARE, "usage: compare MIXTURE FOLDER CASES SEED PROGRAM"),
        (SWI, "usage: swi FOLDER RUN.."),
    ] {
        refuses(program, &[], 2, &[usage]);
    }
    for limit in ["many", "-1", "0.5", "4294967296", ""] {
        let word = format!("'{}' is no such number", limit);
        refuses(SHOW, &["file", limit], 2, &["usage: show", &word]);
    }
    refuses(SHOW, &["file", "1", "2"], 2, &["usage: show"]);
    refuses(EXAMPLE, &["file", "one"], 2, &["usage: example", "'one'"]);
    refuses(CALL_CASES, &["folder", "all"], 2, &["check, goal, run"]);
    refuses(
        COMPARE,
        &["texts", "folder", "9", "first", "cat"],
        2,
        &["usage"],
    );
    refuses(COMPARE, &["folder", "9", "1", "cat"], 2, &["tables, texts"]);
}

#[test]
fn a_file_that_fails_is_named() {
    let missing = path("missing").to_string_lossy().to_string();
    for program in [SHOW, EXAMPLE] {
        refuses(program, &[&missing], 1, &[&missing, "No such file"]);
    }
    let inside = path("missing/cases-").to_string_lossy().to_string();
    refuses(
        COMPARE,
        &["tables", &missing, "9", "1", "cat"],
        1,
        &[&inside],
    );
    let folder = env!("CARGO_TARGET_TMPDIR");
    let words = [missing.as_str(), "No such file"];
    refuses(COMPARE, &["tables", folder, "9", "1", &missing], 1, &words);
    let full = file("full", b"no folder");
    for program in [LINES, CALL_CASES] {
        let ended = start(program, &[&full, "goal"]);
        assert_eq!(ended.status, Some(1));
        assert!(ended.said.contains(&full), "{}", ended.said);
    }
}

#[test]
fn example_says_where_a_text_is_wrong_and_how_many_goals_there_are() {
    let text = file("text.chr", b"p/1.\ngoal p(1) leaves p(1).\n");
    for number in ["0", "2"] {
        let words = format!("{}: no goal {}, there are 1", text, number);
        refuses(EXAMPLE, &[&text, number], 1, &[&words]);
    }
    let wrong = file("wrong.chr", b"p/1.\nq(X) <=> true.\n");
    let words = format!("{}: line 2, column 1: q is not declared", wrong);
    refuses(EXAMPLE, &[&wrong], 1, &[&words]);
}

#[test]
fn the_header_has_words_for_every_number() {
    for number in numbers() {
        let meaning = words::meaning(number).unwrap_or("");
        assert!(!meaning.is_empty(), "{}", number);
    }
    assert_eq!(
        words::meaning(0),
        Some("done: the answer has the facts stored")
    );
    assert_eq!(words::meaning(8), None);
}
