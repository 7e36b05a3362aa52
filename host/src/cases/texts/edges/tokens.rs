//! Texts at the edges of tokens: where one ends and the next begins, and what is none.

use crate::reference::text::token::MARKS;

/// All texts of this page.
pub fn texts() -> Vec<Vec<u8>> {
    let parts = [
        alone(),
        single_bytes(),
        beside_each_other(),
        minuses(),
        constants(),
        words(),
        damaged(),
    ];
    parts.concat()
}

/// What stands before and behind an edge, where the grammar goes on for long.
const AROUND: [[&str; 2]; 7] = [
    ["", "<=>true."],
    ["s0/", "."],
    ["s0/1.s0(", ")<=>true."],
    ["s0/1.s0(V0)<=>V0<", "|true."],
    ["s0/1.s0(V0)<=>V0-", "<1|true."],
    ["s0/1.s0(V0)<=>s0(", ")."],
    ["s0/0.s0<=>", "."],
];

fn around(word: &str) -> Vec<Vec<u8>> {
    let text = |[before, behind]: [&str; 2]| [before, word, behind].concat().into_bytes();
    AROUND.map(text).to_vec()
}

/// Each token by itself, and each beginning of it.
fn alone() -> Vec<Vec<u8>> {
    let others = [
        "s0", "s7", "s10", "s31", "V0", "V15", "true", "fail", "0", "5", "-5",
    ];
    let mut found = vec![vec![]];
    for word in MARKS.iter().chain(&others) {
        found.extend((1..=word.len()).map(|len| word.as_bytes()[..len].to_vec()));
    }
    found
}

/// Each byte by itself, between two statements, and directly behind and before a run of letters and
/// digits.
fn single_bytes() -> Vec<Vec<u8>> {
    let mut found = Vec::new();
    for byte in 0..=255 {
        found.push(vec![byte]);
        found.push([b"s0/0.", &[byte][..], b"s0<=>true."].concat());
        found.push([b"s0", &[byte][..], b"<=>true."].concat());
        found.push([b"s0<=>", &[byte][..], b"7<0|true."].concat());
    }
    found
}

/// Signs of which another part would make a mark too.
#[rustfmt::skip]
const SIGNS: [&str; 30] = [
    "=<=>", "===>", "<==>", "<=>=", "<=>>", "<<=>", "\\<=>", "\\==>", ">==>", "=<<", "=<=",
    "<=<", "=>=", "\\=<", "\\=>", "\\==", "\\\\=", "==", "====>", "=\\=", "< =>", "<= >",
    "= =>", "== >", "= <", "> =", "\\ =", "<\n=\n>", "=\r<", "<=\n>",
];

/// Every two marks with nothing between them, in places where many a first one may come.
fn beside_each_other() -> Vec<Vec<u8>> {
    let mut found = Vec::new();
    for before in ["s0", "s0<=>V0", "s0<=>V0<0"] {
        for first in MARKS {
            for second in MARKS {
                found.push([before, first, second].concat().into_bytes());
            }
        }
    }
    for marks in SIGNS {
        found.push(format!("s0{}true.", marks).into_bytes());
        found.push(format!("s0<=>V0{}1|true.", marks).into_bytes());
        found.push(format!("s0/1.s0(V0)<=>V0<1{}s0(1).", marks).into_bytes());
    }
    found
}

/// What stands before a minus: each sort of token, and nothing.
#[rustfmt::skip]
const BEFORE_MINUS: [&str; 26] = [
    "", "s0", "V0", "5", "s0/1.", "s0/", "s0(", "s0(V0", "s0(5", "s0(V0,", "s0(V0)", "s0<=>",
    "s0<=>V0", "s0<=>5", "s0<=>V0<", "s0<=>V0+", "s0<=>V0-", "s0<=>V0<1|", "s0<=>true",
    "s0<=>fail", "s0<=>s0", "s0<=>s0(", "s0<=>s0(V0", "s0<=>s0(V0,5", "s0<=>s0(V0-", "s0\\",
];
/// A minus and what stands behind it.
#[rustfmt::skip]
const MINUS: [&str; 16] = [
    "-5", "- 5", "--5", "- -5", "-\n-5", "---5", "-", "--", "-0", "-V0", "-s0", "-true", "-5a",
    "-(5)", "-+5", "-_",
];

/// A minus behind each sort of token, with everything behind it.
fn minuses() -> Vec<Vec<u8>> {
    let mut found = Vec::new();
    for before in BEFORE_MINUS {
        found.extend(MINUS.map(|minus| [before, minus].concat().into_bytes()));
        found.push(format!("{} -5)<0|true.", before).into_bytes());
    }
    found
}

/// Numbers at the ends of the range and beyond.
#[rustfmt::skip]
const DIGITS: [&str; 27] = [
    "0", "1", "4", "5", "9", "00", "04", "05", "00007", "10", "2147483646", "2147483647",
    "2147483648", "2147483649", "2147483650", "2147483700", "3000000000", "4294967295",
    "4294967296", "4294967300", "9999999999", "00002147483647", "00002147483648",
    "00002147483649", "21474836470", "18446744073709551616", "18446744073709551620",
];

/// Constants at the ends of the range and beyond, with zeros in front and long.
fn constants() -> Vec<Vec<u8>> {
    let zeros = "0".repeat(400);
    let mut spelled: Vec<String> = DIGITS.map(String::from).to_vec();
    spelled.extend([zeros.clone(), "9".repeat(400)]);
    spelled.push(format!("{}2147483648", zeros));
    let negative = spelled.iter().map(|digits| format!("-{}", digits));
    let all = spelled.iter().cloned().chain(negative);
    all.flat_map(|word| around(&word)).collect()
}

/// Runs of letters and digits that are no tokens, some that are, and some that something parts.
#[rustfmt::skip]
const RUNS: [&str; 56] = [
    "s", "S0", "s00", "s01", "s09", "s31", "s32", "s39", "s40", "s99", "s100", "s310", "s0s1",
    "s0a", "s0V0", "V", "v0", "V00", "V01", "V9", "V10", "V15", "V16", "V19", "V20", "V99",
    "V150", "V0V1", "true", "fail", "tru", "trues0", "true1", "True", "TRUE", "truefail",
    "fai", "fails", "false", "1a", "0x1", "1s0", "1V0", "a", "Z", "z9", "s0_", "_s0", "V_0",
    "1_000", "1.5", "1e5", "s 0", "V 0", "tr ue", "s\n1",
];

/// Each run where a symbol, an arity, a slot or an item may stand.
fn words() -> Vec<Vec<u8>> {
    RUNS.into_iter().flat_map(around).collect()
}

/// A short good text with each byte left out, doubled or another one, and cut off at each.
fn damaged() -> Vec<Vec<u8>> {
    let good = b"s0/1.s0(V0)\\s0(V1)<=>V0-7=<V1|fail,s0(3).";
    let mut found = Vec::new();
    for at in 0..good.len() {
        let (before, behind) = (&good[..at], &good[at + 1..]);
        found.push(before.to_vec());
        found.push([before, behind].concat());
        found.push([before, &[good[at], good[at]], behind].concat());
        for other in [
            0, 9, 10, b' ', b'-', b'0', b's', b'_', b'=', b'>', b'.', 128,
        ] {
            found.push([before, &[other], behind].concat());
        }
    }
    found
}
