//! Random good tables, in styles that lead to different endings.

use super::random::Random;
use super::rules::{rule, RulePlan};
use super::Plan;
use crate::build::{
    alone, constant, of, variable, Expression, Rule, AT_LEAST, AT_MOST, DIFFERENCE, GREATER, LESS,
    SUM,
};

/// What a table is made for.
#[derive(Clone, Copy, Debug, PartialEq, Eq)]
pub enum Style {
    /// One or two heads, everything else at random.
    Mixed,
    /// Rules that keep all their heads.
    Propagation,
    /// Three or four heads.
    ManyHeads,
    /// Facts are used up.
    Shrinking,
    /// One family of rules that fills store, stack or history, or never ends.
    Growing,
    /// Facts that fired are replaced, so that the history's room is used again.
    Turnover,
}

impl Style {
    /// Any of the styles.
    pub fn any(random: &mut Random) -> Style {
        *random.pick(&[
            Style::Mixed,
            Style::Mixed,
            Style::Propagation,
            Style::ManyHeads,
            Style::Shrinking,
            Style::Growing,
            Style::Turnover,
        ])
    }
}

/// A good table in a style.
pub fn table(random: &mut Random, style: Style) -> Plan {
    let mut arities = arities(random);
    let mut rules = random.between(1, 5);
    let (most_facts, most_steps) = match style {
        Style::ManyHeads => {
            // Few symbols of low arity, so that all heads find a fact.
            arities = arities.iter().take(2).map(|arity| arity / 2).collect();
            rules = random.between(1, 2);
            (8, 100)
        }
        Style::Growing => return growing(random),
        Style::Turnover => return turnover(random),
        _ => (*random.pick(&[3, 8, 16]), 600),
    };
    let rules = (0..rules)
        .map(|_| {
            let plan = rule_plan(random, style);
            rule(random, &arities, plan)
        })
        .collect();
    Plan {
        arities,
        rules,
        most_facts,
        most_steps,
    }
}

/// One to four symbols of any arity.
fn arities(random: &mut Random) -> Vec<u8> {
    let symbols = random.between(1, 4);
    let arity = |random: &mut Random| *random.pick(&[0, 1, 1, 1, 2, 2, 2, 3, 4]);
    (0..symbols).map(|_| arity(random)).collect()
}

fn rule_plan(random: &mut Random, style: Style) -> RulePlan {
    let heads = match style {
        Style::ManyHeads => random.between(3, 4),
        _ => random.between(1, 2),
    };
    let kept = match style {
        Style::Propagation if random.chance(85) => heads,
        Style::Shrinking => random.between(0, heads - 1),
        _ => random.between(0, heads),
    };
    let items = match style {
        Style::Shrinking => random.between(0, 1),
        Style::ManyHeads => *random.pick(&[0, 0, 0, 1, 1, 2]),
        _ => *random.pick(&[0, 1, 1, 1, 2, 2, 3, 4]),
    };
    RulePlan {
        kept,
        removed: heads - kept,
        guards: *random.pick(&[0, 0, 0, 0, 1, 1, 1, 2, 3, 4]),
        items,
        fails: *random.pick(&[0, 0, 0, 10, 30]),
    }
}

/// A family that fills store, stack or history, or counts up and down.
fn growing(random: &mut Random) -> Plan {
    let x = variable(0);
    let y = variable(1);
    let up = of(SUM, x, constant(1));
    let copies = random.between(2, 4);
    let family = *random.pick(&[0, 1, 2, 3, 3, 3, 4, 4, 5, 6, 7]);
    let rule = match family {
        // Store: a kept fact adds others.
        0 => add(Rule::new().keep(0, &[x]), copies, up),
        1 => add(Rule::new().keep(0, &[x]), copies - 1, alone(constant(1))),
        // Stack: a removed fact adds several.
        2 => add(Rule::new().remove(0, &[x]), copies, alone(x)),
        // History: every ordered pair fires once.
        3 => Rule::new().keep(0, &[x]).keep(0, &[y]),
        4 => Rule::new()
            .keep(0, &[x])
            .keep(0, &[y])
            .guard(alone(x), LESS, alone(y)),
        // Steps: the same fact over and over.
        5 => Rule::new().remove(0, &[x]).add(0, &[alone(x)]),
        // A count down to 0.
        6 => Rule::new()
            .remove(0, &[x])
            .guard(alone(x), GREATER, alone(constant(0)))
            .add(0, &[of(DIFFERENCE, x, constant(1))]),
        // A smallest one of all stays.
        _ => Rule::new()
            .keep(0, &[x])
            .remove(0, &[y])
            .guard(alone(x), AT_MOST, alone(y)),
    };
    let mut rules = vec![rule];
    if random.chance(40) {
        rules.insert(random.between(0, 1), small_rule(random));
    }
    // Pairs fill the history from 17 facts on.
    let most_facts = match family {
        3 | 4 => *random.pick(&[16, 17, 25, 64]),
        _ => *random.pick(&[1, 2, 10, 25, 40, 64]),
    };
    Plan {
        arities: vec![1, 1],
        rules,
        most_facts,
        most_steps: 1500,
    }
}

/// p(X) fires once, perhaps adding q(X), and then gives way to p(X + 1): up to 400 entries pass
/// through the history, few of them at a time.
fn turnover(random: &mut Random) -> Plan {
    let x = variable(0);
    let last = alone(constant(random.between(1, 400) as i32));
    let once = Rule::new().keep(0, &[x]);
    let next = Rule::new().remove(0, &[x]);
    let variant = random.below(6);
    let mut rules = match variant {
        // Nothing is added.
        0 | 1 => vec![once, next],
        // The fact added goes at once.
        2 => {
            let gone = Rule::new().remove(1, &[x]);
            vec![gone, once.add(1, &[alone(x)]), next]
        }
        // p and q both fire once, and both give way to the next pair.
        3 | 4 => {
            let twice = Rule::new().keep(1, &[x]);
            vec![once, twice, next.remove(1, &[variable(1)])]
        }
        // The fact added removes p, whose entry stays on the stack.
        _ => vec![once.add(1, &[alone(x)]), next.remove(1, &[variable(1)])],
    };
    let up = of(SUM, x, constant(1));
    let replace = rules.pop().expect("the last rule replaces p");
    let replace = replace.guard(alone(x), LESS, last).add(0, &[up]);
    rules.push(match variant {
        3 | 4 => replace.add(1, &[up]),
        _ => replace,
    });
    if random.chance(40) {
        rules.insert(random.between(0, 2), small_rule(random));
    }
    Plan {
        arities: vec![1, 1],
        rules,
        most_facts: *random.pick(&[1, 1, 2, 5, 20]),
        most_steps: 3000,
    }
}

/// A rule with some body facts of symbol 0, or of 1 at times.
fn add(mut rule: Rule, copies: usize, argument: Expression) -> Rule {
    for copy in 0..copies {
        rule = rule.add(u8::from(copy == 3), &[argument]);
    }
    rule
}

/// A rule beside a growing one.
fn small_rule(random: &mut Random) -> Rule {
    let x = variable(0);
    let edge = alone(constant(random.between(1, 200) as i32));
    match random.below(5) {
        0 => Rule::new().remove(1, &[x]),
        1 => Rule::new().keep(0, &[x]).keep(1, &[x]),
        2 => Rule::new().remove(0, &[x]).guard(alone(x), AT_LEAST, edge),
        3 => Rule::new()
            .keep(0, &[x])
            .guard(alone(x), AT_LEAST, edge)
            .fail(),
        _ => Rule::new().keep(0, &[x]).remove(0, &[x]),
    }
}

/// A table with weights under which most rules lose weight, and the weights.
pub fn weighed(random: &mut Random) -> (Plan, Vec<u8>) {
    let mut arities = arities(random);
    if random.chance(2) {
        arities.resize(32, 1);
    }
    let weights: Vec<u8> = arities.iter().map(|_| weight(random)).collect();
    let mut rules = Vec::new();
    for _ in 0..random.between(0, 5) {
        rules.push(lighter_rule(random, &arities, &weights));
    }
    if random.chance(12) {
        let plan = rule_plan(random, Style::Mixed);
        let at = random.between(0, rules.len());
        rules.insert(at, rule(random, &arities, plan));
    }
    let plan = Plan {
        arities,
        rules,
        most_facts: 16,
        most_steps: 600,
    };
    (plan, weights)
}

fn weight(random: &mut Random) -> u8 {
    match random.below(10) {
        0 => 255,
        1 => random.between(1, 255) as u8,
        _ => random.between(1, 6) as u8,
    }
}

/// A rule whose removed heads weigh more than its body: items are left out until it does.
fn lighter_rule(random: &mut Random, arities: &[u8], weights: &[u8]) -> Rule {
    let kept = random.between(0, 1);
    let plan = RulePlan {
        kept,
        removed: random.between(1, 3 - kept),
        guards: *random.pick(&[0, 0, 1, 1, 2]),
        items: random.between(0, 4),
        fails: 10,
    };
    let mut rule = rule(random, arities, plan);
    // The second byte of a head or body fact is its symbol; a fail has none.
    let weigh = |record: &Vec<u8>| match record.get(1) {
        Some(symbol) => u32::from(weights[usize::from(*symbol)]),
        None => 0,
    };
    let removed: u32 = rule.removed.iter().map(weigh).sum();
    while rule.body.iter().map(weigh).sum::<u32>() >= removed {
        rule.body.pop();
    }
    rule
}

/// A full table: 32 symbols, 64 rules with four heads, four guards and four body facts each.
/// It is the longest good table, 23,681 bytes.
pub fn longest(random: &mut Random) -> Plan {
    let arities: Vec<u8> = (0..32).map(|_| random.between(0, 4) as u8).collect();
    let mut rules = Vec::new();
    for _ in 0..64 {
        let kept = random.between(0, 4);
        let plan = RulePlan {
            kept,
            removed: 4 - kept,
            guards: 4,
            items: 4,
            fails: 0,
        };
        rules.push(rule(random, &arities, plan));
    }
    Plan {
        arities,
        rules,
        most_facts: 24,
        most_steps: 600,
    }
}
