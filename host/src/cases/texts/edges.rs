//! Texts and tables at every edge of reading and printing.

pub mod grammar;
pub mod tables;
pub mod tokens;

use super::long::{many_of, MANY};
use crate::build::{alone, constant, of, table, table_a, variable, Rule, DIFFERENCE, UNEQUAL};
use crate::cases::{edges, Case};
use crate::format::MAX_TEXT;
use crate::reference::check;
use crate::reference::text::print::text;
use crate::reference::text::read::stands_for;

/// Short texts to read, each with room for its table to the byte, and some with less.
pub fn read_cases() -> Vec<Case> {
    let texts = [tokens::texts(), grammar::texts(), tables::texts()].concat();
    let mut found: Vec<Case> = texts.into_iter().map(exact).collect();
    found.extend(rooms());
    found
}

/// A text with room for its table to the byte; for a few bytes where it stands for none.
fn exact(text: Vec<u8>) -> Case {
    let len = stands_for(&text).map_or(8, |table| table.len());
    Case::read_text(text, len)
}

/// One text for each number, with room that is too short, just enough and more.
fn rooms() -> Vec<Case> {
    let texts = [
        "",
        " \n",
        "s0/2.",
        "s0/2. s0(V0, V1) \\ s0(V0, V2) <=> V1 =< V2 | true.",
        "s0/0. s0, s0, s0, s0, s0 <=> true.",
        "s0/0. s0 <=> s1.",
        "s0/0. s0 <=> s0(V0).",
        "s0/1. s0(V0) <=> s0(V1).",
        "s0/1. s0(V0) <=> V1 = 0 | true.",
        "s0/0. s0 <=> s0",
        "s0/0. s0 => s0.",
        "s0/0. s0 <=> s0 _",
    ];
    let mut found = Vec::new();
    for text in texts.map(|text| text.as_bytes().to_vec()) {
        let len = stands_for(&text).map_or(30, |table| table.len());
        for room in [0, 1, len / 2, len - 1, len, len + 1, len + 100] {
            found.push(Case::read_text(text.clone(), room));
        }
    }
    found
}

/// The greatest length and one more or less; tables of up to a million bytes; places near the end of
/// a text; the longest text that is printed.
pub fn long_cases() -> Vec<Case> {
    let mut texts = Vec::new();
    for len in MAX_TEXT - 1..=MAX_TEXT + 1 {
        for before in ["", "s0/1.", "s0/1", "s0", "s0/0.s0<=>true.", "_", ")"] {
            let mut text = before.as_bytes().to_vec();
            text.resize(len, b' ');
            texts.push(text.clone());
            for last in [b'.', b'_', b')', b'0', b's', b'-'] {
                text[len - 1] = last;
                texts.push(text.clone());
            }
        }
        let zeros = "0".repeat(len - 5);
        texts.push(format!("s0/{}1.", zeros).into_bytes());
        texts.push("9".repeat(len).into_bytes());
        texts.push(b"s0\n".repeat(len / 3 + 1)[..len].to_vec());
        for sort in MANY {
            texts.push(many_of(sort, len));
            let declared = [b"s0/0.".to_vec(), many_of(sort, len - 5)];
            texts.push(declared.concat());
        }
    }
    let mut found: Vec<Case> = texts.into_iter().map(exact).collect();
    for case in found.clone().iter().filter(|case| case.answer_len > 8) {
        let short = case.answer_len - 1;
        found.push(Case::read_text(case.table.clone(), short));
    }
    found.extend(there_and_back(longest_printed()));
    found.push(Case::print_text(longest_printed(), MAX_TEXT));
    found
}

/// The good table whose text is the longest that is printed.
pub fn longest_printed() -> Vec<u8> {
    let lowest = constant(i32::MIN);
    let both = of(DIFFERENCE, lowest, lowest);
    let heads = Rule::new().keep(31, &[lowest; 4]).keep(30, &[lowest; 4]);
    let heads = heads.remove(29, &[lowest; 4]).remove(28, &[lowest; 4]);
    let guards = (0..4).fold(heads, |rule, _| rule.guard(both, UNEQUAL, both));
    let rule = (0..4).fold(guards, |rule, _| rule.add(31, &[both; 4]));
    table(&[4; 32], &vec![rule; 64])
}

/// A good table printed and its text read, with just enough room and with one byte less.
pub fn there_and_back(table: Vec<u8>) -> Vec<Case> {
    let read = check::read(&table).expect("a good table");
    let text = text(&read).into_bytes();
    vec![
        Case::print_text(table.clone(), text.len()),
        Case::print_text(table.clone(), text.len() - 1),
        Case::read_text(text.clone(), table.len()),
        Case::read_text(text, table.len() - 1),
    ]
}

/// Short tables to print, the good ones with room for their text to the byte, and some with less or
/// more.
pub fn print_cases() -> Vec<Case> {
    let mut found = Vec::new();
    for table in edges::tables().into_iter().chain(spelled()) {
        if let Ok(good) = check::read(&table) {
            found.push(Case::print_text(table, text(&good).len()));
        }
    }
    for table in [vec![8], table_a(), vec![1, 3, 8], vec![8, 8], vec![]] {
        let len = check::read(&table).map_or(20, |table| text(&table).len());
        for room in [
            0,
            1,
            len / 2,
            len.saturating_sub(1),
            len,
            len + 1,
            len + 100,
        ] {
            found.push(Case::print_text(table.clone(), room));
        }
    }
    found
}

/// Bad tables to print.
pub fn bad_print_cases() -> Vec<Case> {
    let mut tables = edges::tables();
    tables.retain(|table| check::read(table).is_err());
    let case = |table| Case::print_text(table, 100);
    tables.into_iter().map(case).collect()
}

/// Tables with each number that is printed in a way of its own: every symbol, arity, variable,
/// comparator and operation, and constants of each length.
fn spelled() -> Vec<Vec<u8>> {
    let mut found = Vec::new();
    for symbols in 1..=32_u8 {
        let last = Rule::new().remove(symbols - 1, &[]).add(symbols - 1, &[]);
        found.push(table(&vec![0; symbols.into()], &[last]));
    }
    for number in 0..16 {
        let v = variable(number);
        let rule = Rule::new().keep(0, &[v]).guard(alone(v), 0, alone(v));
        found.push(table(&[1], &[rule.add(0, &[of(1, v, v)])]));
    }
    for comparator in 0..=5 {
        for operation in 1..=5 {
            let [x, y] = [0, 1].map(variable);
            let rule = Rule::new().remove(0, &[x, y]);
            let rule = rule.guard(of(operation, x, y), comparator, of(operation, y, x));
            found.push(table(&[2], &[rule]));
        }
    }
    for value in constants() {
        let c = constant(value);
        let rule = Rule::new().remove(0, &[c]).guard(alone(c), 0, of(2, c, c));
        found.push(table(&[1], &[rule.add(0, &[of(2, c, c)])]));
    }
    for arity in 0..=4 {
        let slots = vec![variable(0); arity];
        let arguments = vec![alone(variable(0)); arity];
        let kept = Rule::new().keep(1, &[variable(0)]).keep(0, &slots);
        let rule = kept.remove(0, &slots).add(0, &arguments).fail();
        found.push(table(&[arity as u8, 1], &[rule]));
    }
    found
}

/// Numbers of every count of digits, both ends of each, of either sign.
fn constants() -> Vec<i32> {
    let mut found = vec![0, 1, -1, i32::MAX, i32::MAX - 1, i32::MIN, i32::MIN + 1];
    for digits in 1..=9 {
        let least = 10_i32.pow(digits);
        found.extend([least - 1, least, least + 1, 1 - least, -least, -least - 1]);
    }
    found
}
