//! Walks through the grammar: words that may follow each other, whatever they mean. So texts come to
//! every position, those that tables seldom have included.

use super::words::Words;
use crate::cases::random::Random;
use crate::names::Symbol;
use crate::reference::table::Variable;
use crate::reference::text::grammar::Beginning;
use crate::reference::text::token::{Token, MARKS};

/// A row of words that begins a text, with no more than so many steps.
pub fn beginning(random: &mut Random, most: usize) -> Words {
    let mut walk = Walk::new();
    for _ in 0..random.between(0, most) {
        walk.step(random);
    }
    walk.words
}

/// A row of words that is a text.
pub fn whole(random: &mut Random) -> Words {
    let mut walk = Walk::new();
    for _ in 0..random.between(1, 60) {
        walk.step(random);
    }
    while !walk.beginning.is_text() {
        walk.step(random);
    }
    walk.words
}

/// The words so far, and how they can go on.
struct Walk {
    words: Words,
    beginning: Beginning,
}

impl Walk {
    fn new() -> Walk {
        Walk {
            words: Vec::new(),
            beginning: Beginning::empty(),
        }
    }

    /// Adds a word that may come next: words are tried until one may.
    fn step(&mut self, random: &mut Random) {
        loop {
            let (word, token) = any_word(random);
            if let Some(longer) = self.beginning.with(token) {
                self.words.push(word);
                self.beginning = longer;
                return;
            }
        }
    }
}

/// A word and the token that it is where it may come.
fn any_word(random: &mut Random) -> (String, Token) {
    let value = *random.pick(&[0, 1, 2, 4, 7, -7, i32::MIN]);
    let number = *random.pick(&[0, 0, 1, 2, 9, 15]);
    match random.below(20) {
        0..=4 => (format!("s{}", number), Token::Symbol(Symbol(number))),
        5 | 6 => (format!("V{}", number), Token::Variable(Variable(number))),
        7 | 8 => (value.to_string(), Token::Constant(value)),
        9 => ("true".to_string(), Token::True),
        10 => ("fail".to_string(), Token::Fail),
        _ => {
            let mark = match random.chance(40) {
                // Those that lead to positions with many words before them.
                true => *random.pick(&[",", ",", ",", "(", "(", "\\", "+"]),
                false => *random.pick(&MARKS),
            };
            (mark.to_string(), Token::Mark(mark))
        }
    }
}
