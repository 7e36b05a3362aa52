//! A place in an example's words, and what can be taken there.

use super::token::{Placed, Token};
use super::{Declared, Error, Place};
use crate::names::Symbol;

/// What a slot is read from: a number, or the name of a variable.
pub enum Value {
    Number(i32),
    Variable(String),
}

/// The words, and how many are taken.
pub struct Cursor {
    words: Vec<Placed>,
    taken: usize,
}

impl Cursor {
    pub fn new(words: Vec<Placed>) -> Cursor {
        Cursor { words, taken: 0 }
    }

    /// The next word, if there is one.
    pub fn peek(&self) -> Option<&Token> {
        self.words.get(self.taken).map(|word| &word.token)
    }

    /// Whether the next word is a name.
    pub fn peek_is_name(&self) -> bool {
        matches!(self.peek(), Some(Token::Name(_)))
    }

    /// Whether the next word is this mark.
    pub fn peek_is(&self, mark: &str) -> bool {
        matches!(self.peek(), Some(Token::Mark(next)) if *next == mark)
    }

    /// Whether the word behind the next one is this mark.
    pub fn second_is(&self, mark: &str) -> bool {
        let second = self.words.get(self.taken + 1).map(|word| &word.token);
        matches!(second, Some(Token::Mark(next)) if *next == mark)
    }

    /// The place of the next word, or of the last one.
    pub fn place(&self) -> Place {
        let word = self.words.get(self.taken).or_else(|| self.words.last());
        word.map_or(Place { line: 1, column: 1 }, |word| word.place)
    }

    /// An error at the next word.
    pub fn error(&self, message: impl Into<String>) -> Error {
        Error {
            place: self.place(),
            message: message.into(),
        }
    }

    /// The error that something else was expected here.
    pub fn expected(&self, what: &str) -> Error {
        let found = self.peek().map_or("the end".to_string(), told);
        self.error(format!("expected {}, not {}", what, found))
    }

    /// The same, with what is good to know about it.
    fn expected_since(&self, what: &str, since: &str) -> Error {
        let Error { place, message } = self.expected(what);
        Error {
            place,
            message: format!("{}: {}", message, since),
        }
    }

    /// Takes a mark if it is the next word.
    pub fn take(&mut self, mark: &str) -> bool {
        let here = self.peek_is(mark);
        self.taken += usize::from(here);
        here
    }

    /// Takes a name if it is the next word.
    pub fn take_name(&mut self, name: &str) -> bool {
        let here = matches!(self.peek(), Some(Token::Name(next)) if next == name);
        self.taken += usize::from(here);
        here
    }

    /// Takes a mark that must be here.
    pub fn expect(&mut self, mark: &str) -> Result<(), Error> {
        if self.take(mark) {
            Ok(())
        } else {
            Err(self.expected(&format!("'{}'", mark)))
        }
    }

    /// Takes the dot behind a statement. Where a line ends without it, the error is there.
    pub fn end_of_statement(&mut self) -> Result<(), Error> {
        if self.take(".") {
            return Ok(());
        }
        let next = self.words.get(self.taken).map(|word| word.place.line);
        let last = self.words[..self.taken].last();
        Err(match last.filter(|last| next != Some(last.place.line)) {
            None => self.expected("'.'"),
            Some(last) => Error {
                place: last.place,
                message: format!("expected '.' behind {}", told(&last.token)),
            },
        })
    }

    /// Takes a name that must be here.
    pub fn name(&mut self) -> Result<String, Error> {
        match self.peek() {
            Some(Token::Name(name)) => {
                let name = name.clone();
                self.taken += 1;
                Ok(name)
            }
            Some(Token::Variable(_)) => {
                Err(self.expected_since("a name", "names begin with a small letter"))
            }
            _ => Err(self.expected("a name")),
        }
    }

    /// Takes a number or a variable.
    pub fn value(&mut self) -> Result<Value, Error> {
        let what = "a number or a variable";
        match self.peek() {
            Some(Token::Variable(name)) => {
                let name = name.clone();
                self.taken += 1;
                Ok(Value::Variable(name))
            }
            Some(Token::Number(_) | Token::Mark("-")) => self.constant().map(Value::Number),
            Some(Token::Name(_)) => {
                Err(self.expected_since(what, "variables begin with a capital letter"))
            }
            _ => Err(self.expected(what)),
        }
    }

    /// Takes a number of a fact that has no variables.
    pub fn ground(&mut self) -> Result<i32, Error> {
        match self.peek() {
            Some(Token::Variable(_)) => {
                Err(self.expected_since("a number", "goals have no variables"))
            }
            _ => self.constant(),
        }
    }

    /// Takes a signed 32-bit number.
    pub fn constant(&mut self) -> Result<i32, Error> {
        let negative = self.take("-");
        let number = match self.peek() {
            Some(Token::Number(number)) if negative => -number,
            Some(Token::Number(number)) => *number,
            _ => return Err(self.expected("a number")),
        };
        let out_of_range = |_| self.error(format!("{} does not fit 32 bits", number));
        let constant = i32::try_from(number).map_err(out_of_range)?;
        self.taken += 1;
        Ok(constant)
    }

    /// Takes one or more of something, with commas between.
    pub fn list<T>(
        &mut self,
        mut one: impl FnMut(&mut Cursor) -> Result<T, Error>,
    ) -> Result<Vec<T>, Error> {
        let mut list = vec![one(self)?];
        while self.take(",") {
            list.push(one(self)?);
        }
        Ok(list)
    }

    /// Takes a declared symbol with something at each of its places.
    pub fn fact<T>(
        &mut self,
        symbols: &[Declared],
        one: impl FnMut(&mut Cursor) -> Result<T, Error>,
    ) -> Result<(Symbol, Vec<T>), Error> {
        let place = self.place();
        let wrong = |message| Error { place, message };
        let name = self.name()?;
        let at = symbols.iter().position(|declared| declared.name == name);
        let at = at.ok_or_else(|| wrong(format!("{} is not declared", name)))?;
        let mut places = Vec::new();
        if self.take("(") {
            places = self.list(one)?;
            self.expect(")")?;
        }
        let arity = symbols[at].arity;
        if places.len() == arity {
            Ok((Symbol(at as u8), places))
        } else {
            let noun = if arity == 1 { "place" } else { "places" };
            let message = format!("{} has {} {}, not {}", name, arity, noun, places.len());
            Err(wrong(message))
        }
    }
}

/// A word as an error names it.
fn told(token: &Token) -> String {
    match token {
        Token::Name(word) | Token::Variable(word) => word.clone(),
        Token::Number(number) => number.to_string(),
        Token::Mark(mark) => format!("'{}'", mark),
    }
}
