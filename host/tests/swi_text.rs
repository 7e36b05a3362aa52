//! What a table and its goals look like as a program for SWI-Prolog, and what is read back.

use nadhirukh_host::ending::Ending;
use nadhirukh_host::example::Example;
use nadhirukh_host::names::Symbol;
use nadhirukh_host::reference::check;
use nadhirukh_host::reference::state::Fact;
use nadhirukh_host::swi::{endings, program, Arithmetic};

/// The lines of a program behind what all programs have in common.
fn exported(text: &str, arithmetic: Arithmetic) -> Vec<String> {
    let example = Example::read(text).expect("the text is good");
    let table = check::read(&example.table).expect("the table is good");
    let program = program(&table, &example.all_goals(0), arithmetic);
    let lines = program
        .lines()
        .skip_while(|line| !line.starts_with("goals("));
    lines.map(str::to_string).collect()
}

fn fact(symbol: u8, arguments: [i32; 4]) -> Fact {
    Fact {
        symbol: Symbol(symbol),
        arguments,
    }
}

#[test]
fn symbols_goals_and_heads() {
    let text = "mu/2. on/0. mu(S, A) \\ mu(S, -3), on <=> A =< 4 | true. on ==> fail, on.
        goal mu(7, -310), on leaves on. goal true leaves true.";
    let expected = [
        "goals(2).",
        "goal(1) :- s0(7, -310), s1.",
        "goal(2) :- true.",
        ":- chr_constraint s0(+int, +int).",
        ":- chr_constraint s1.",
        "s0(V0, V1) \\ s0(V0, -3), s1 <=> V1 =< 4 | true.",
        "s1 ==> fail, s1.",
    ];
    assert_eq!(exported(text, Arithmetic::Exact), expected);
    assert_eq!(exported(text, Arithmetic::Native), expected);
}

#[test]
fn guards_that_can_be_undefined_are_one_predicate() {
    let text = "k/2. k(A, B) <=> B \\= 0, A / B > B % -2 | true. k(A, B) <=> 1 / 0 = 0 | true.";
    let exact = [
        "guard0(V1, V0) :- V1 =\\= 0, value(3, V0 div V1, T0), value(3, V1 mod -2, T1), T0 > T1.",
        "s0(V0, V1) <=> guard0(V1, V0) | true.",
        "guard1 :- value(3, 1 div 0, T0), T0 =:= 0.",
        "s0(V0, V1) <=> guard1 | true.",
    ];
    assert_eq!(exported(text, Arithmetic::Exact)[2..], exact);
    let native = [
        "s0(V0, V1) <=> V1 =\\= 0, V0 div V1 > V1 mod -2 | true.",
        "s0(V0, V1) <=> 1 div 0 =:= 0 | true.",
    ];
    assert_eq!(exported(text, Arithmetic::Native)[2..], native);
}

#[test]
fn quotients_and_remainders_of_numbers_below_zero_keep_their_minus() {
    let text = "p/1. p(A) <=> p(-7 / A), p(-7 % -2), p(A / -2).";
    let native = "s0(V0) <=> T0 is -7 div V0, T1 is -7 mod -2, T2 is V0 div -2, \
        s0(T0), s0(T1), s0(T2).";
    assert_eq!(exported(text, Arithmetic::Native)[2..], [native]);
}

#[test]
fn a_body_is_worked_out_before_it_is_told() {
    let text = "p/2. p(A, B) <=> p(A + 1, B), fail, p(2, A * B), p(A - B, A).";
    let exact = "s0(V0, V1) <=> value(4, V0 + 1, T0), value(4, V0 * V1, T1), \
        value(4, V0 - V1, T2), s0(T0, V1), fail, s0(2, T1), s0(T2, V0).";
    assert_eq!(exported(text, Arithmetic::Exact)[2..], [exact]);
    let native = "s0(V0, V1) <=> T0 is V0 + 1, T1 is V0 * V1, T2 is V0 - V1, \
        s0(T0, V1), fail, s0(2, T1), s0(T2, V0).";
    assert_eq!(exported(text, Arithmetic::Native)[2..], [native]);
}

#[test]
fn printed_endings_are_read_back() {
    let printed = "ends 0\n1 5 -7\n0\nends 3\nends 0\n";
    let facts = vec![fact(0, [0; 4]), fact(1, [5, -7, 0, 0])];
    let expected = vec![
        Ending::new(0, facts),
        Ending::new(3, Vec::new()),
        Ending::new(0, Vec::new()),
    ];
    assert_eq!(endings(printed), Some(expected));
    assert_eq!(endings("1 5 -7\n"), None);
    assert_eq!(endings("ends 0\nWarning\n"), None);
    assert_eq!(endings("ends 0\n1 2 3 4 5 6\n"), None);
}
