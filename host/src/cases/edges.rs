//! Tables at every limit and just beyond it, and each bad field by itself.

use super::random::Random;
use super::tables;
use crate::build::{alone, constant, of, table, variable, Rule, AT_MOST, SUM};
use crate::format::{body_len, END, KEPT, RULE};

/// All tables of this page, good and bad ones.
pub fn tables() -> Vec<Vec<u8>> {
    let parts = [
        counts(),
        order(),
        ends(),
        fields(),
        variables(),
        two_faults(),
    ];
    parts.concat()
}

/// A rule with one removed head p(X).
fn plain_rule() -> Rule {
    Rule::new().remove(0, &[variable(0)])
}

/// As many as allowed of each sort, and one more.
fn counts() -> Vec<Vec<u8>> {
    let mut found = Vec::new();
    for symbols in [0, 1, 32, 33] {
        found.push(table(&vec![1; symbols], &[]));
    }
    for rules in [1, 64, 65] {
        found.push(table(&[1], &vec![plain_rule(); rules]));
    }
    for heads in [1_usize, 4, 5] {
        for kept in 0..=heads {
            let mut rule = Rule::new();
            for head in 0..heads {
                rule = match head < kept {
                    true => rule.keep(0, &[variable(0)]),
                    false => rule.remove(0, &[variable(0)]),
                };
            }
            found.push(table(&[1], &[rule]));
        }
    }
    for count in [0, 4, 5] {
        found.push(table(&[1], &[with_guards(count)]));
        for fails in 0..=count {
            found.push(table(&[1], &[with_items(count, fails)]));
        }
    }
    found
}

fn with_guards(count: usize) -> Rule {
    let x = alone(variable(0));
    (0..count).fold(plain_rule(), |rule, _| rule.guard(x, AT_MOST, x))
}

/// A body of so many items, of which the last ones are fails.
fn with_items(count: usize, fails: usize) -> Rule {
    (0..count).fold(plain_rule(), |rule, item| match item + fails < count {
        true => rule.add(0, &[alone(variable(0))]),
        false => rule.fail(),
    })
}

/// A record of each kind behind each other record, in a table that is good up to there.
fn order() -> Vec<Vec<u8>> {
    let x = variable(0);
    let full = Rule::new()
        .keep(0, &[x])
        .remove(0, &[x])
        .guard(alone(x), AT_MOST, alone(x))
        .add(0, &[alone(x)])
        .fail();
    let records = crate::build::records(&[1], &[full]);
    let mut found = Vec::new();
    for cut in 0..=records.len() - 1 {
        for next in &records {
            let mut bytes = records[..cut].concat();
            bytes.extend(next);
            bytes.push(END);
            found.push(bytes);
        }
    }
    found
}

/// Tables that are cut short, extended, without an end, or of unknown kinds.
fn ends() -> Vec<Vec<u8>> {
    let good = table(&[1], &[plain_rule()]);
    let mut found = vec![vec![], vec![END, 0], vec![END, END], vec![RULE]];
    for len in [1, 2, 3, 4, good.len() - 2, good.len() - 1] {
        found.push(good[..len].to_vec());
    }
    for kind in 0..=20_u8 {
        found.push(vec![kind]);
        let mut padded = vec![kind];
        padded.resize(1 + body_len(kind).unwrap_or(0), 0);
        padded.push(END);
        found.push(padded);
    }
    for kind in [64, 128, 255] {
        found.push([good.clone(), vec![kind]].concat());
        found.push([good[..good.len() - 1].to_vec(), vec![kind]].concat());
    }
    found
}

/// Each byte of each record, one at a time, with values on both sides of what is good.
fn fields() -> Vec<Vec<u8>> {
    let (x, one) = (variable(0), constant(1));
    let full = Rule::new()
        .keep(1, &[x, one])
        .remove(0, &[x])
        .guard(alone(x), AT_MOST, of(SUM, x, one))
        .add(1, &[alone(x), of(SUM, x, one)]);
    let good = table(&[1, 2], &[full]);
    let mut found = Vec::new();
    for at in 0..good.len() {
        for value in [0, 1, 3, 6, 16] {
            if value != good[at] {
                let mut bytes = good.clone();
                bytes[at] = value;
                found.push(bytes);
            }
        }
    }
    for arity in [0, 4, 5, 255] {
        found.push(table(&[arity], &[]));
    }
    found
}

/// Variables at the edge of 0..15, bound and unbound, in heads, guards and bodies.
fn variables() -> Vec<Vec<u8>> {
    let mut found = Vec::new();
    for number in [0, 1, 15, 16, 255, 256, 1 << 31, u32::MAX] {
        let v = variable(number);
        let x = variable(0);
        let head = Rule::new().keep(0, &[v]);
        let bound = Rule::new().remove(0, &[v]).add(0, &[alone(v)]);
        let body = plain_rule().add(0, &[of(SUM, x, v)]);
        let guard = plain_rule().guard(alone(x), AT_MOST, alone(v));
        let late = [Rule::new().remove(0, &[v]), body.clone()];
        found.push(table(&[1], &[head]));
        found.push(table(&[1], &[bound]));
        found.push(table(&[1], &[guard]));
        found.push(table(&[1], &[body]));
        // A head of another rule does not bind the variable.
        found.push(table(&[1], &late));
    }
    found
}

/// Records with two faults, of which the earlier test decides.
fn two_faults() -> Vec<Vec<u8>> {
    let (x, unbound, bad) = (variable(0), variable(9), variable(99));
    let one = |rule: Rule| table(&[1], &[rule]);
    let heads = |count| (0..count).fold(Rule::new(), |rule, _| rule.remove(0, &[x]));
    let without_end = |mut bytes: Vec<u8>| {
        bytes.pop();
        bytes
    };
    let full = without_end(table(&[1; 32], &vec![plain_rule(); 64]));
    let headless = without_end(table(&[1], &vec![plain_rule(); 63]));
    vec![
        // 19 before 20 and 22: one too many, with a bad field or an unbound variable.
        [[1, 0].repeat(32), vec![1, 5, END]].concat(),
        one(heads(4).remove(7, &[x])),
        one(heads(4).remove(0, &[bad])),
        one(with_guards(4).guard(alone(x), 9, alone(x))),
        one(with_guards(4).guard(alone(x), 0, alone(unbound))),
        one(with_items(4, 2).add(7, &[])),
        one(with_items(4, 0).add(0, &[alone(unbound)])),
        // 20 before 22, whichever side comes first.
        one(plain_rule().guard(alone(unbound), 0, alone(bad))),
        one(plain_rule().guard(alone(bad), 0, alone(unbound))),
        table(
            &[2],
            &[Rule::new()
                .keep(0, &[x, x])
                .add(0, &[alone(unbound), alone(bad)])],
        ),
        // 18 before 19 and 20: a symbol behind rules, the 33rd and with a bad arity.
        [full.clone(), vec![1, 5, END]].concat(),
        // 19 for the 65th rule, and 21 for it behind a headless one.
        [full, vec![RULE, END]].concat(),
        [headless.clone(), vec![RULE, RULE, END]].concat(),
        // 18 before 21: a symbol behind a headless rule; 17 before both.
        [headless.clone(), vec![RULE, 1, 1, END]].concat(),
        [headless.clone(), vec![RULE, 1]].concat(),
        [headless, vec![RULE, 5, 9]].concat(),
    ]
}

/// The longest good table, and what goes wrong near its end.
pub fn longest_tables(seed: u64) -> Vec<Vec<u8>> {
    let good = tables::longest(&mut Random::new(seed)).bytes();
    let without_end = good[..good.len() - 1].to_vec();
    vec![
        [good.clone(), vec![0]].concat(),
        [without_end.clone(), vec![RULE, KEPT]].concat(),
        [without_end.clone(), vec![7, END]].concat(),
        without_end,
        good,
    ]
}
