//! The table that the tokens of a text stand for, as it is written, good or bad. The tokens are of
//! the grammar, so nothing is tested here.

use super::marks;
use super::token::{Placed, Token};
use crate::names::Symbol;
use crate::reference::table::{Expression, Guard, Head, Item, Rule, Slot, Table};

/// The table of a text.
pub fn table(tokens: &[Placed]) -> Table {
    let tokens: Vec<Token> = tokens.iter().map(|placed| placed.token).collect();
    let mut left = Left(&tokens);
    let mut table = Table::default();
    while left.second_is("/") {
        table.arities.push(left.declaration());
    }
    while !left.0.is_empty() {
        table.rules.push(left.rule());
    }
    table
}

/// The tokens that are left to take.
struct Left<'a>(&'a [Token]);

impl Left<'_> {
    fn take(&mut self) -> Token {
        let (token, rest) = self.0.split_first().expect("the grammar has a token here");
        self.0 = rest;
        *token
    }

    /// Whether the token at a place is this mark.
    fn is_mark(&self, at: usize, wanted: &str) -> bool {
        matches!(self.0.get(at), Some(Token::Mark(mark)) if *mark == wanted)
    }

    fn second_is(&self, mark: &str) -> bool {
        self.is_mark(1, mark)
    }

    /// Takes a mark if it is next.
    fn takes(&mut self, mark: &str) -> bool {
        let here = self.is_mark(0, mark);
        if here {
            self.take();
        }
        here
    }

    /// Takes what stands between commas.
    fn list<T>(&mut self, one: fn(&mut Self) -> T) -> Vec<T> {
        let mut found = vec![one(self)];
        while self.takes(",") {
            found.push(one(self));
        }
        found
    }

    /// Takes a symbol, and what it has between parentheses.
    fn fact<T>(&mut self, argument: fn(&mut Self) -> T) -> (Symbol, Vec<T>) {
        let symbol = match self.take() {
            Token::Symbol(symbol) => symbol,
            other => panic!("{:?} is no symbol", other),
        };
        let mut arguments = Vec::new();
        if self.takes("(") {
            arguments = self.list(argument);
            self.take();
        }
        (symbol, arguments)
    }

    /// Takes a declaration: its arity.
    fn declaration(&mut self) -> usize {
        self.take();
        self.take();
        let arity = self.slot();
        self.take();
        match arity {
            Slot::Constant(arity) => arity as usize,
            Slot::Variable(_) => panic!("an arity is a constant"),
        }
    }

    fn rule(&mut self) -> Rule {
        let mut rule = Rule {
            heads: self.list(Left::head),
            ..Rule::default()
        };
        if self.takes("\\") {
            rule.kept = rule.heads.len();
            rule.heads.extend(self.list(Left::head));
        }
        if self.takes("==>") {
            rule.kept = rule.heads.len();
        } else {
            self.take();
        }
        if self.value_is_next() {
            rule.guards = self.list(Left::comparison);
            self.take();
        }
        rule.body = self.body();
        self.take();
        rule
    }

    fn head(&mut self) -> Head {
        let (symbol, slots) = self.fact(Left::slot);
        Head { symbol, slots }
    }

    /// Whether a guard begins here: a body begins with no value.
    fn value_is_next(&self) -> bool {
        self.0.first().map_or(false, |token| token.is_value())
    }

    fn comparison(&mut self) -> Guard {
        let left = self.expression();
        let comparator = match self.take() {
            Token::Mark(mark) => marks::comparator(mark),
            _ => None,
        };
        Guard {
            left,
            comparator: comparator.expect("the grammar has a comparator here"),
            right: self.expression(),
        }
    }

    fn expression(&mut self) -> Expression {
        let first = self.slot();
        let operation = match self.0.first() {
            Some(Token::Mark(mark)) => marks::operation(mark),
            _ => None,
        };
        match operation {
            None => Expression::Alone(first),
            Some(operation) => {
                self.take();
                Expression::Of(operation, first, self.slot())
            }
        }
    }

    fn slot(&mut self) -> Slot {
        match self.take() {
            Token::Constant(value) => Slot::Constant(value),
            Token::Variable(variable) => Slot::Variable(variable),
            other => panic!("{:?} is no slot", other),
        }
    }

    /// Takes `true` for no items, or items.
    fn body(&mut self) -> Vec<Item> {
        if self.0.first() == Some(&Token::True) {
            self.take();
            return Vec::new();
        }
        self.list(Left::item)
    }

    fn item(&mut self) -> Item {
        if self.0.first() == Some(&Token::Fail) {
            self.take();
            return Item::Fail;
        }
        let (symbol, arguments) = self.fact(Left::expression);
        Item::Fact { symbol, arguments }
    }
}
