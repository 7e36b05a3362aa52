//! The grammar of texts, written down as data apart from the reader, and which tokens begin a text
//! of it.
//!
//! ```text
//! text        = declaration* rule*
//! declaration = "s"k "/" arity "."            k is the number of declarations before it; arity is
//!                                             a constant of value 0..4
//! rule        = heads [ "\" heads ] "<=>" rest | heads "==>" rest
//! rest        = [ comparison { "," comparison } "|" ] body "."
//! heads       = head { "," head }
//! head        = symbol [ "(" slot { "," slot } ")" ]                at most four slots
//! comparison  = expression comparator expression
//! expression  = slot [ operation slot ]
//! slot        = constant | variable
//! body        = "true" | item { "," item }
//! item        = "fail" | symbol [ "(" expression { "," expression } ")" ]   at most four expressions
//! ```

use self::Form::{Any, Declarations, Either, One, Row, UpTo};
use super::marks::{COMPARATORS, OPERATIONS};
use super::token::{Placed, Token};
use crate::format::{MAX_SYMBOLS, PLACES};
use crate::names::Symbol;

/// What a token has to be.
#[derive(Clone, Copy, Debug, PartialEq, Eq, PartialOrd, Ord)]
pub enum Class {
    Symbol,
    /// The symbol of this number and no other one.
    Next(u8),
    Variable,
    Constant,
    /// A constant of value 0..4.
    Arity,
    True,
    Fail,
    Comparator,
    Operation,
    Mark(&'static str),
}

/// A part of the grammar: the rows of tokens that it stands for. Every part stands for some row.
#[derive(Clone, Copy, Debug, PartialEq, Eq, PartialOrd, Ord)]
pub enum Form {
    /// One token.
    One(Class),
    /// All of these, one behind the other.
    Row(&'static [Form]),
    /// One of these.
    Either(&'static [Form]),
    /// From none up to so many of these, one behind the other.
    UpTo(usize, &'static Form),
    /// Any number of these, also none.
    Any(&'static Form),
    /// Any number of declarations, also none; the first one declares the symbol of this number.
    Declarations(u8),
}

const COMMA: Form = One(Class::Mark(","));
const DOT: Form = One(Class::Mark("."));
const OPEN: Form = One(Class::Mark("("));
const CLOSE: Form = One(Class::Mark(")"));

/// The whole grammar.
pub const TEXT: Form = Row(&[Declarations(0), Any(&RULE)]);

const RULE: Form = Either(&[
    Row(&[HEADS, UpTo(1, &REMOVED), One(Class::Mark("<=>")), REST]),
    Row(&[HEADS, One(Class::Mark("==>")), REST]),
]);
const REMOVED: Form = Row(&[One(Class::Mark("\\")), HEADS]);
const REST: Form = Row(&[UpTo(1, &GUARD), BODY, DOT]);
const GUARD: Form = Row(&[
    COMPARISON,
    Any(&Row(&[COMMA, COMPARISON])),
    One(Class::Mark("|")),
]);

const HEADS: Form = Row(&[HEAD, Any(&Row(&[COMMA, HEAD]))]);
const HEAD: Form = Row(&[One(Class::Symbol), UpTo(1, &SLOTS)]);
const SLOTS: Form = Row(&[OPEN, SLOT, UpTo(PLACES - 1, &Row(&[COMMA, SLOT])), CLOSE]);

const COMPARISON: Form = Row(&[EXPRESSION, One(Class::Comparator), EXPRESSION]);
const EXPRESSION: Form = Row(&[SLOT, UpTo(1, &Row(&[One(Class::Operation), SLOT]))]);
const SLOT: Form = Either(&[One(Class::Constant), One(Class::Variable)]);

const BODY: Form = Either(&[One(Class::True), Row(&[ITEM, Any(&Row(&[COMMA, ITEM]))])]);
const ITEM: Form = Either(&[
    One(Class::Fail),
    Row(&[One(Class::Symbol), UpTo(1, &EXPRESSIONS)]),
]);
const EXPRESSIONS: Form = Row(&[
    OPEN,
    EXPRESSION,
    UpTo(PLACES - 1, &Row(&[COMMA, EXPRESSION])),
    CLOSE,
]);

/// Whether tokens are a text of the grammar. If not: the first token such that the tokens up to and
/// with it begin no text, or where all of them begin one, the text's length.
pub fn test(tokens: &[Placed], text_len: usize) -> Result<(), usize> {
    let mut beginning = Beginning::empty();
    for placed in tokens {
        beginning = beginning.with(placed.token).ok_or(placed.at)?;
    }
    match beginning.is_text() {
        true => Ok(()),
        false => Err(text_len),
    }
}

/// Tokens that begin a text, seen by how they can go on.
#[derive(Clone, Debug)]
pub struct Beginning {
    /// Each way is what is still to come, the last form first. It begins with one token, or is
    /// empty where the text may end. Since every form stands for some row of tokens, each way leads
    /// to a text.
    ways: Vec<Vec<Form>>,
}

impl Beginning {
    /// No tokens.
    pub fn empty() -> Beginning {
        let mut ways = Vec::new();
        open(vec![TEXT], &mut ways);
        Beginning { ways }
    }

    /// These tokens and one more, or nothing where they begin no text.
    pub fn with(&self, token: Token) -> Option<Beginning> {
        let mut ways = Vec::new();
        for way in &self.ways {
            match way.split_last() {
                Some((One(class), rest)) if class.holds(token) => open(rest.to_vec(), &mut ways),
                _ => {}
            }
        }
        (!ways.is_empty()).then_some(Beginning { ways })
    }

    /// Whether these tokens are a text themselves.
    pub fn is_text(&self) -> bool {
        self.ways.iter().any(Vec::is_empty)
    }

    /// What is still to come by each way, the last form first.
    pub fn ways(&self) -> &[Vec<Form>] {
        &self.ways
    }
}

/// Adds the ways that a row of forms stands for: every choice is taken until a token is next.
fn open(mut row: Vec<Form>, ways: &mut Vec<Vec<Form>>) {
    match row.pop() {
        None => ways.push(row),
        Some(One(class)) => ways.push(before(&row, &[One(class)])),
        Some(Row(parts)) => open(before(&row, parts), ways),
        Some(Either(parts)) => {
            for part in parts {
                open(before(&row, &[*part]), ways);
            }
        }
        Some(UpTo(most, part)) => {
            if most > 0 {
                open(before(&row, &[*part, UpTo(most - 1, part)]), ways);
            }
            open(row, ways);
        }
        Some(Any(part)) => {
            open(before(&row, &[*part, Any(part)]), ways);
            open(row, ways);
        }
        Some(Declarations(next)) => {
            if usize::from(next) < MAX_SYMBOLS {
                let declaration = [
                    One(Class::Next(next)),
                    One(Class::Mark("/")),
                    One(Class::Arity),
                    DOT,
                ];
                let more = before(&row, &[Declarations(next + 1)]);
                open(before(&more, &declaration), ways);
            }
            open(row, ways);
        }
    }
}

/// A row, whose last form is first, with these forms before it.
fn before(row: &[Form], parts: &[Form]) -> Vec<Form> {
    row.iter().chain(parts.iter().rev()).copied().collect()
}

impl Class {
    /// Whether a token is of this class.
    pub fn holds(self, token: Token) -> bool {
        match (self, token) {
            (Class::Symbol, Token::Symbol(_)) => true,
            (Class::Next(number), Token::Symbol(symbol)) => symbol == Symbol(number),
            (Class::Variable, Token::Variable(_)) => true,
            (Class::Constant, Token::Constant(_)) => true,
            (Class::Arity, Token::Constant(value)) => (0..=PLACES as i32).contains(&value),
            (Class::True, Token::True) => true,
            (Class::Fail, Token::Fail) => true,
            (Class::Comparator, Token::Mark(mark)) => COMPARATORS.contains(&mark),
            (Class::Operation, Token::Mark(mark)) => OPERATIONS.contains(&mark),
            (Class::Mark(wanted), Token::Mark(mark)) => wanted == mark,
            _ => false,
        }
    }
}
