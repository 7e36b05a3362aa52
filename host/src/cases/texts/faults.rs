//! Faults that the grammar allows: texts whose tables are mostly refused with 19, 20 or 22.

use super::words::Words;
use crate::cases::random::Random;
use crate::format::{MAX_RULES, MAX_SYMBOLS, VARIABLES};

/// The words of a declaration.
const DECLARATION: usize = 4;

/// Marks that end a head, a guard or an item where they stand outside parentheses.
const ENDS: [&str; 6] = [",", "\\", "<=>", "==>", "|", "."];

/// Brings a fault into a good text, or leaves it good by chance.
pub fn fault(random: &mut Random, words: &mut Words) {
    match random.below(10) {
        0 | 1 => other_symbol(random, words),
        2 | 3 => other_variable(random, words),
        4 => other_arity(random, words),
        5 => more_arguments(random, words),
        6 => more_rules(random, words),
        _ => more_parts(random, words),
    }
}

/// How many declarations the words begin with.
fn declarations(words: &Words) -> usize {
    let declares = |four: &&[String]| four[0].starts_with('s') && four[1] == "/";
    words.chunks_exact(DECLARATION).take_while(declares).count()
}

/// The places of the words of rules for which this holds.
fn places(words: &Words, holds: impl Fn(&str) -> bool) -> Vec<usize> {
    let places = DECLARATION * declarations(words)..words.len();
    places.filter(|at| holds(&words[*at])).collect()
}

/// One of these, if there is one.
fn one_of<T: Copy>(random: &mut Random, list: &[T]) -> Option<T> {
    (!list.is_empty()).then(|| *random.pick(list))
}

/// Puts another symbol for one of a rule.
fn other_symbol(random: &mut Random, words: &mut Words) {
    if let Some(at) = one_of(random, &places(words, |word| word.starts_with('s'))) {
        let end = *random.pick(&[5, MAX_SYMBOLS as u64]);
        words[at] = format!("s{}", random.below(end));
    }
}

/// Puts another variable for one.
fn other_variable(random: &mut Random, words: &mut Words) {
    if let Some(at) = one_of(random, &places(words, |word| word.starts_with('V'))) {
        words[at] = format!("V{}", random.below(VARIABLES as u64));
    }
}

/// Changes the arity of a declaration.
fn other_arity(random: &mut Random, words: &mut Words) {
    let declarations: Vec<usize> = (0..declarations(words)).collect();
    if let Some(number) = one_of(random, &declarations) {
        words[DECLARATION * number + 2] = random.below(5).to_string();
    }
}

/// How many parentheses are open before each word.
fn depths(words: &Words) -> Vec<usize> {
    let mut depth: usize = 0;
    let mut found = Vec::new();
    for word in words {
        found.push(depth);
        match word.as_str() {
            "(" => depth += 1,
            ")" => depth = depth.saturating_sub(1),
            _ => {}
        }
    }
    found
}

/// Puts an argument more before a comma, or leaves out the value before it.
fn more_arguments(random: &mut Random, words: &mut Words) {
    let depths = depths(words);
    let mut commas = places(words, |word| word == ",");
    commas.retain(|at| depths[*at] > 0);
    match one_of(random, &commas) {
        Some(at) if random.chance(50) => {
            words.splice(at..at, [",", "0"].map(String::from));
        }
        Some(at) => {
            words.drain(at - 1..=at);
        }
        None => {}
    }
}

/// Repeats a head, a guard or an item.
fn more_parts(random: &mut Random, words: &mut Words) {
    let depths = depths(words);
    let mut ends = places(words, |word| ENDS.contains(&word));
    ends.retain(|at| depths[*at] == 0);
    let first = DECLARATION * declarations(words);
    let starts = [first].into_iter().chain(ends.iter().map(|at| at + 1));
    let parts: Vec<(usize, usize)> = starts.zip(ends.iter().copied()).collect();
    if let Some((start, end)) = one_of(random, &parts) {
        let mut part = words[start..end].to_vec();
        part.push(",".to_string());
        for _ in 0..*random.pick(&[1, 2, 3, 4, 4, 5]) {
            words.splice(start..start, part.clone());
        }
    }
}

/// Repeats the last rule, if it is a short one, up to as many as there may be, or more.
fn more_rules(random: &mut Random, words: &mut Words) {
    let dots = places(words, |word| word == ".");
    let first = DECLARATION * declarations(words);
    let start = dots.iter().rev().nth(1).map_or(first, |at| at + 1);
    let rule = words[start..].to_vec();
    if rule.is_empty() || rule.len() > 30 {
        return;
    }
    let wanted = *random.pick(&[MAX_RULES, MAX_RULES + 1, MAX_RULES + 1, MAX_RULES + 9]);
    for _ in dots.len()..wanted {
        words.extend(rule.iter().cloned());
    }
}
