//! The words of texts, how they are spelled, and what stands between them.

use crate::cases::random::Random;
use crate::reference::check;
use crate::reference::text::print;
use crate::reference::text::token::tokens;

/// A text's words, which are mostly tokens.
pub type Words = Vec<String>;

/// The words of a good table's text.
pub fn of_table(table: &[u8]) -> Words {
    let table = check::read(table).expect("a good table");
    of_text(&print::text(&table))
}

/// The words of a text that has nothing but tokens.
pub fn of_text(text: &str) -> Words {
    let tokens = tokens(text.as_bytes()).expect("nothing but tokens");
    let starts = tokens.iter().map(|placed| placed.at);
    let ends = starts.clone().skip(1).chain([text.len()]);
    let word = |(start, end): (usize, usize)| text[start..end].trim_end().to_string();
    starts.zip(ends).map(word).collect()
}

/// What stands between the words of a text.
#[derive(Clone, Copy, Debug, PartialEq, Eq)]
enum Spacing {
    /// Nothing, but for a space where two words would become one.
    Squeezed,
    /// Nothing at all: two words may become one.
    Run,
    /// One space.
    Single,
    /// A line for each statement.
    Lines,
    /// Anything that may stand there, and often nothing.
    Mixed,
}

/// A text of these words, with some spacing.
pub fn spaced(random: &mut Random, words: &Words) -> Vec<u8> {
    let spacing = match random.below(20) {
        0..=5 => Spacing::Squeezed,
        6 => Spacing::Run,
        7..=9 => Spacing::Single,
        10..=12 => Spacing::Lines,
        _ => Spacing::Mixed,
    };
    let mut text = Vec::new();
    for word in words {
        let space = between(random, spacing, text.last().copied(), word);
        text.extend(space.as_bytes());
        text.extend(word.as_bytes());
    }
    if spacing != Spacing::Run && random.chance(50) {
        text.extend(gap(random).as_bytes());
    }
    text
}

/// What stands between a text's last byte and the next word.
fn between(random: &mut Random, spacing: Spacing, last: Option<u8>, word: &str) -> String {
    let in_run = |byte: u8| byte.is_ascii_alphanumeric();
    let meets = last.map_or(false, in_run) && word.bytes().next().map_or(false, in_run);
    let mixed = gap(random);
    let space = match spacing {
        Spacing::Squeezed | Spacing::Run => "",
        Spacing::Single => " ",
        Spacing::Lines if last == Some(b'.') => "\n",
        Spacing::Lines => " ",
        Spacing::Mixed => &mixed,
    };
    match meets && space.is_empty() && spacing != Spacing::Run {
        true => " ".to_string(),
        false => space.to_string(),
    }
}

/// Spaces and line ends, often none.
fn gap(random: &mut Random) -> String {
    let count = *random.pick(&[0, 0, 0, 1, 1, 1, 2, 5]);
    let spaces = (0..count).map(|_| *random.pick(&[' ', ' ', ' ', '\n', '\r']));
    spaces.collect()
}

/// Spells some constants otherwise: with zeros in front, and 0 with a minus.
pub fn respell(random: &mut Random, words: &mut Words) {
    for word in words {
        let is_constant = word.parse::<i32>().is_ok();
        if is_constant && random.chance(15) {
            *word = with_zeros(random, word);
        }
    }
}

/// A constant with zeros in front; 0 at times with a minus.
fn with_zeros(random: &mut Random, word: &str) -> String {
    let count = *random.pick(&[0, 1, 1, 2, 9, 10, 11, 40, 300]);
    let zeros = "0".repeat(count);
    match word.strip_prefix('-') {
        Some(digits) => format!("-{}{}", zeros, digits),
        None if word == "0" && random.chance(50) => format!("-{}0", zeros),
        None => format!("{}{}", zeros, word),
    }
}
