//! The positions of the grammar of texts: all that a text can come to, and at which of them a text
//! is refused, for a byte that begins no token, a token that cannot come there, or its end.

use std::collections::{BTreeMap, BTreeSet, VecDeque};

use crate::names::Symbol;
use crate::outcome::Outcome;
use crate::reference::table::Variable;
use crate::reference::text::grammar::{Beginning, Class, Form};
use crate::reference::text::token::{tokens, Token, MARKS};

/// A position, by the shortest row of words that comes to it.
#[derive(Clone, Debug, PartialEq, Eq)]
pub struct Position {
    pub words: Vec<&'static str>,
    /// Whether a text may end here.
    pub is_text: bool,
}

/// Every position of the grammar, by what is still to come there. How many declarations stand before
/// the last one is left out of account.
pub struct Positions(BTreeMap<Ways, Position>);

type Ways = Vec<Vec<Form>>;

/// Why a text is refused where it is.
const NO_TOKEN: &str = "no token";
const OTHER_TOKEN: &str = "another token";
const END: &str = "the end";

/// What is told of a byte that is no token behind tokens that begin no text.
const BEHIND: &str = "no token behind what begins no text";

impl Positions {
    /// Goes from position to position, by every word, until no new one is found.
    pub fn all() -> Positions {
        let mut found = BTreeMap::new();
        let mut left = VecDeque::from([(Beginning::empty(), Vec::new())]);
        while let Some((beginning, words)) = left.pop_front() {
            let ways = alike(&beginning);
            if found.contains_key(&ways) {
                continue;
            }
            for (word, token) in all_words() {
                let longer = [&words[..], &[word]].concat();
                left.extend(beginning.with(token).map(|more| (more, longer)));
            }
            let is_text = beginning.is_text();
            found.insert(ways, Position { words, is_text });
        }
        Positions(found)
    }

    /// Each position, those with fewer words first.
    pub fn list(&self) -> Vec<&Position> {
        let mut list: Vec<&Position> = self.0.values().collect();
        list.sort_by_key(|position| (position.words.len(), position.words.clone()));
        list
    }

    /// Every way in which a text can be refused at a position, in words.
    pub fn refusals(&self) -> BTreeSet<String> {
        let mut found = BTreeSet::from([BEHIND.to_string()]);
        for position in self.0.values() {
            found.extend([NO_TOKEN, OTHER_TOKEN].map(|why| position.tell(why)));
            if !position.is_text {
                found.insert(position.tell(END));
            }
        }
        found
    }

    /// How a text is refused by this outcome of reading it, in words; nothing for other numbers than
    /// 49 and 50.
    pub fn refusal(&self, text: &[u8], outcome: &Outcome) -> Option<String> {
        let place = outcome.place as usize;
        let why = match outcome.number {
            49 => NO_TOKEN,
            50 if place < text.len() => OTHER_TOKEN,
            50 => END,
            _ => return None,
        };
        Some(match beginning(&text[..place]) {
            Some(beginning) => self.0[&alike(&beginning)].tell(why),
            None => BEHIND.to_string(),
        })
    }
}

impl Position {
    fn tell(&self, why: &str) -> String {
        format!("{} behind '{}'", why, self.words.join(" "))
    }
}

/// The tokens of this text as a beginning, or nothing where they begin no text.
fn beginning(text: &[u8]) -> Option<Beginning> {
    let tokens = tokens(text).ok()?;
    let with = |beginning: Beginning, token| beginning.with(token);
    let mut tokens = tokens.iter().map(|placed| placed.token);
    tokens.try_fold(Beginning::empty(), with)
}

/// Words that are enough to come to every position.
fn all_words() -> Vec<(&'static str, Token)> {
    let mut words = vec![
        ("s0", Token::Symbol(Symbol(0))),
        ("s1", Token::Symbol(Symbol(1))),
        ("V0", Token::Variable(Variable(0))),
        ("0", Token::Constant(0)),
        ("true", Token::True),
        ("fail", Token::Fail),
    ];
    words.extend(MARKS.map(|mark| (mark, Token::Mark(mark))));
    words
}

/// What is still to come, the same for the second declaration and for all later ones.
fn alike(beginning: &Beginning) -> Ways {
    let form = |form: &Form| match *form {
        Form::One(Class::Next(number)) => Form::One(Class::Next(number.min(1))),
        Form::Declarations(number) => Form::Declarations(number.min(1)),
        other => other,
    };
    let way = |way: &Vec<Form>| way.iter().map(form).collect();
    beginning.ways().iter().map(way).collect()
}

#[cfg(test)]
mod tests {
    use super::*;

    /// The fewest words with which a text is complete behind a position.
    fn words_to_a_text(start: Beginning) -> usize {
        let mut seen = BTreeSet::new();
        let mut left = VecDeque::from([(start, 0)]);
        while let Some((beginning, words)) = left.pop_front() {
            if beginning.is_text() {
                return words;
            }
            if seen.insert(alike(&beginning)) {
                let longer = |(_, token)| beginning.with(token).map(|more| (more, words + 1));
                left.extend(all_words().into_iter().filter_map(longer));
            }
        }
        panic!("no text goes on here");
    }

    #[test]
    fn every_position_leads_to_a_text() {
        let positions = Positions::all();
        assert_eq!(positions.list().len(), 58);
        for position in positions.list() {
            let text = position.words.join(" ");
            let beginning = beginning(text.as_bytes()).expect("a beginning");
            let words = words_to_a_text(beginning);
            assert_eq!(words == 0, position.is_text);
            assert!(words <= 6, "{} behind {}", words, text);
        }
    }

    #[test]
    fn a_text_is_refused_at_the_position_that_its_words_come_to() {
        let positions = Positions::all();
        let told = |text: &str, number, place| {
            let outcome = Outcome::from(crate::outcome::Refusal::at(number, place));
            positions.refusal(text.as_bytes(), &outcome)
        };
        let behind = |why: &str| Some(format!("{} behind 's0 ( V0'", why));
        assert_eq!(told("s7 ( 5 _", 49, 7), behind("no token"));
        assert_eq!(told("s7(5.", 50, 4), behind("another token"));
        assert_eq!(told("s7(5", 50, 4), behind("the end"));
        assert_eq!(told(") _", 49, 2), Some(BEHIND.to_string()));
        assert_eq!(told("s7", 51, 0), None);
    }
}
