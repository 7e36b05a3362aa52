//! Texts at the edges of the grammar: each position, and each word behind it.

use crate::format::MAX_SYMBOLS;
use crate::positions::{Position, Positions};
use crate::reference::text::token::MARKS;

/// All texts of this page.
pub fn texts() -> Vec<Vec<u8>> {
    [pairs(), declarations(), arguments(), statements()].concat()
}

/// Words of each class, the marks of each sort among them, and two that are no tokens.
fn any_words() -> Vec<&'static str> {
    let mut words = vec![
        "s0", "s1", "s31", "V0", "V15", "0", "4", "5", "-5", "true", "fail", "_", "s32",
    ];
    words.extend(MARKS);
    words
}

/// Each position with nothing behind it, and with each word. Every second text has no spaces, unless
/// two words would become one.
fn pairs() -> Vec<Vec<u8>> {
    let positions = Positions::all();
    let mut found = Vec::new();
    for position in positions.list() {
        found.push(position.words.join(" ").into_bytes());
        for word in any_words() {
            let between = match found.len() % 2 == 0 || meets(position, word) {
                true => " ",
                false => "",
            };
            let words = [&position.words[..], &[word]].concat();
            found.push(words.join(between).into_bytes());
        }
    }
    found
}

/// Whether a word behind a position goes on with its last run of letters and digits.
fn meets(position: &Position, word: &str) -> bool {
    let in_run = |byte: Option<u8>| byte.map_or(false, |byte| byte.is_ascii_alphanumeric());
    let last = position.words.last().and_then(|last| last.bytes().last());
    in_run(last) && in_run(word.bytes().next())
}

/// What stands for an arity, good or bad.
#[rustfmt::skip]
const ARITIES: [&str; 27] = [
    "0", "1", "2", "3", "4", "5", "6", "9", "-1", "-0", "-4", "04", "05", "00", "000004", "10",
    "256", "260", "65536", "65540", "4294967296", "V0", "s0", "true", "(1)", "1+1", "",
];

/// So many declarations, and what may follow them or not.
fn declarations() -> Vec<Vec<u8>> {
    let mut found = Vec::new();
    for count in [0, 1, 2, 9, 10, 11, MAX_SYMBOLS - 1, MAX_SYMBOLS] {
        let declared: String = (0..count).map(|k| format!("s{}/0.", k)).collect();
        found.push(declared.clone().into_bytes());
        for next in [count.saturating_sub(1), count, count + 1] {
            for behind in ["", "/", "/1", "/1.", "/5.", "<=>true.", "<=>true.s1/0."] {
                found.push(format!("{}s{}{}", declared, next, behind).into_bytes());
            }
        }
    }
    for arity in ARITIES {
        found.push(format!("s0/{}.", arity).into_bytes());
        found.push(format!("s0/0.s1/{}.s0<=>true.", arity).into_bytes());
    }
    found
}

/// Symbols with each count of arguments, in heads and in bodies, with and without an operation.
fn arguments() -> Vec<Vec<u8>> {
    let mut found = Vec::new();
    for count in 0..=6 {
        for argument in [
            "V0", "7", "-7", "V0+1", "V0-1", "V0+1+1", "s0", "(V0)", "", "true",
        ] {
            let list = vec![argument; count].join(",");
            for [before, behind] in [
                ["s0(", ")<=>true."],
                ["s0\\s1(", ")<=>true."],
                ["s0<=>s1(", ")."],
                ["s0==>0=0|fail,s1(", "),s0."],
            ] {
                found.push([before, &list, behind].concat().into_bytes());
            }
        }
    }
    found
}

/// Statements that are a text, or nearly one.
#[rustfmt::skip]
const STATEMENTS: [&str; 73] = [
    "s0/0.s0<=>true.s0/0.", "s0/0.s0<=>true.s1/0.", "s0<=>true.s0/0.", "s0<=>true", "s0<=>.",
    "s0.", "s0,s0.", "<=>true.", "\\s0<=>true.", "s0\\<=>true.", "s0\\s0==>true.",
    "s0\\s0\\s0<=>true.", "s0<=>s0<=>true.", "s0==>s0<=>true.", "s0<=>true|true.",
    "s0<=>|true.", "s0<=>0=0|", "s0<=>0=0|.", "s0<=>0=0.", "s0<=>0=0,true.",
    "s0<=>0=0,s0|true.", "s0<=>0=0,|true.", "s0<=>,0=0|true.", "s0<=>0=0||true.",
    "s0<=>0=0|0=0|true.", "s0<=>0=0=0|true.", "s0<=>0<=0|true.", "s0<=>0=>0|true.",
    "s0<=>0==0|true.", "s0<=>(0=0)|true.", "s0<=>0|true.", "s0<=>V0+1|true.",
    "s0<=>0+0+0=0|true.", "s0<=>0+=0|true.", "s0<=>+0=0|true.", "s0<=>s0=0|true.",
    "s0<=>true,true.", "s0<=>true,fail.", "s0<=>fail,true.", "s0<=>s0,true.", "s0<=>true,s0.",
    "s0<=>fail,fail.", "s0<=>fail(0).", "s0<=>true().", "s0<=>V0.", "s0<=>0.", "s0<=>s0,.",
    "s0<=>,s0.", "s0<=>s0..", "s0<=>s0.s0", "s0<=>s0.s0.", "s0<=>s0;s0.", "fail<=>true.",
    "true<=>true.", "V0<=>true.", "0<=>true.", "s0,fail<=>true.", "s0,<=>true.",
    "s0 s0<=>true.", "s0(V0<=>true.", "s0 V0)<=>true.", "s0((V0))<=>true.",
    "s0(V0)(V0)<=>true.", "s0(V0 V0)<=>true.", "s0(V0,)<=>true.", "s0(,V0)<=>true.",
    "s0(V0+1)<=>true.", "s0(V0=1)<=>true.", "rule@s0<=>true.", "% a comment\ns0<=>true.",
    "# a comment\ns0<=>true.", "s0<=>true.%", "s0/1. % a comment",
];

/// Each statement by itself.
fn statements() -> Vec<Vec<u8>> {
    STATEMENTS.map(|text| text.as_bytes().to_vec()).to_vec()
}
