//! Texts of the grammar whose tables are at an edge of document 01's rules.

use crate::format::{MAX_GUARDS, MAX_HEADS, MAX_ITEMS, MAX_RULES, PLACES};

/// All texts of this page.
pub fn texts() -> Vec<Vec<u8>> {
    let parts = [counts(), fields(), variables(), two_faults()];
    parts.concat().into_iter().map(String::into_bytes).collect()
}

/// A word so many times, with commas between.
fn times(word: &str, count: usize) -> String {
    vec![word; count].join(",")
}

/// As many heads, guards, items and rules as allowed, and up to two more.
fn counts() -> Vec<String> {
    let mut found = Vec::new();
    for heads in 1..=MAX_HEADS + 2 {
        for arrow in ["<=>", "==>"] {
            found.push(format!("s0/0.{}{}true.", times("s0", heads), arrow));
        }
        for kept in 1..heads {
            let [kept, removed] = [kept, heads - kept].map(|count| times("s0", count));
            found.push(format!("s0/0.{}\\{}<=>fail.", kept, removed));
        }
    }
    for guards in 1..=MAX_GUARDS + 2 {
        let guards = times("V0=<0", guards);
        found.push(format!("s0/1.s0(V0)<=>{}|s0(1).", guards));
    }
    for items in 1..=MAX_ITEMS + 2 {
        for fails in 0..=items {
            let items = [vec!["s0"; items - fails], vec!["fail"; fails]].concat();
            found.push(format!("s0/0.s0==>{}.", items.join(",")));
        }
    }
    for rules in MAX_RULES - 1..=MAX_RULES + 2 {
        found.push(format!("s0/0.{}", "s0<=>true.".repeat(rules)));
    }
    found
}

/// Symbols that are declared or not, with each count of arguments for each arity.
fn fields() -> Vec<String> {
    let mut found = Vec::new();
    for arity in 0..=PLACES {
        for used in 0..=PLACES {
            for value in ["V0", "0"] {
                let list = match used {
                    0 => String::new(),
                    _ => format!("({})", times(value, used)),
                };
                found.push(format!("s0/{}.s1/1.s1(V0),s0{}==>true.", arity, list));
                found.push(format!("s0/{}.s1/1.s1(V0)\\s0{}<=>true.", arity, list));
                found.push(format!("s0/{}.s1/1.s1(V0)<=>fail,s0{}.", arity, list));
            }
        }
    }
    for symbol in [0, 1, 2, 3, 30, 31] {
        found.push(format!("s{}<=>true.", symbol));
        found.push(format!("s0/0.s1/0.s{}<=>true.", symbol));
        found.push(format!("s0/0.s1/0.s0\\s{}<=>true.", symbol));
        found.push(format!("s0/0.s1/0.s0,s{}==>0=0|fail.", symbol));
        found.push(format!("s0/0.s1/0.s0<=>s1,s{}.", symbol));
    }
    found
}

/// Variables in a guard or a body that stand in a head or in none, at each place.
fn variables() -> Vec<String> {
    let mut found = Vec::new();
    for v in ["V0", "V1", "V2", "V15"] {
        for rest in [
            format!("{}=0|true.", v),
            format!("0={}|true.", v),
            format!("V0+{}=0|true.", v),
            format!("{}+V0=0|true.", v),
            format!("V0=0-{}|true.", v),
            format!("V0={}*V0|true.", v),
            format!("V0=0,V0={}|true.", v),
            format!("s0({},0).", v),
            format!("s0(0,{}).", v),
            format!("s0(0%{},0).", v),
            format!("s0(0,{}/7).", v),
            format!("s0(V0,V0),fail,s0(V0,{}).", v),
        ] {
            found.push(format!("s0/2.s0(V0,V2)<=>{}", rest));
            found.push(format!("s0/2.s0(V0,0)\\s0(7,V2)<=>{}", rest));
            // A head of another rule does not count.
            found.push(format!("s0/2.s0({},V0)==>true.s0(V0,V0)==>{}", v, rest));
        }
    }
    found
}

/// Two faults, of which the one in the earlier record decides, or the earlier test of one record.
fn two_faults() -> Vec<String> {
    let texts = [
        "s0/0.s0,s0,s0,s0,s1<=>true.",
        "s0/0.s0,s0,s0,s1,s0<=>true.",
        "s0/0.s0,s0,s0,s0\\s0(V0)<=>true.",
        "s0/0.s0<=>0=0,0=0,0=0,0=0,0=V0|true.",
        "s0/0.s0<=>0=0,0=0,0=0,0=V0,0=0|true.",
        "s0/0.s0<=>fail,fail,fail,fail,s1.",
        "s0/0.s0<=>fail,fail,fail,fail,s0(V0).",
        "s0/0.s0<=>fail,fail,fail,s0(V0),fail.",
        "s0/1.s0(V0)<=>s1(V1).",
        "s0/1.s0(V0)<=>s0(V1,V1).",
        "s0/1.s0(V0)<=>s0(V1),s1.",
        "s0/1.s0(V0)<=>V1=0|s1.",
        "s0/1.s1(V0)<=>V1=0|true.",
        "s0/1.s0(V0)<=>true.s0(V0)<=>s0(V1).s1<=>true.",
    ];
    let full = format!("s0/0.{}", "s0<=>true.".repeat(MAX_RULES));
    let mut found = texts.map(String::from).to_vec();
    found.push(format!("{}s1<=>s0(V0).", full));
    found.push(format!("{}s0<=>true._", full));
    found.push(format!("{}s0<=>true", full));
    found
}
