//! A text's table, written as the text is read.

use super::token::{Kind, NoToken, Tokens, QUOTIENT};
use crate::format::{
    body_len, BODY_FACT, BODY_FAIL, END, EXPRESSION_LEN, GUARD, KEPT, PLACES, REMOVED, RULE,
    SLOT_LEN, SYMBOL,
};
use crate::outcome::Refusal;

/// Why a text is refused where the next token should begin, or begins.
enum Fault {
    NoToken,
    OutOfPlace,
}

impl From<NoToken> for Fault {
    fn from(_: NoToken) -> Fault {
        Fault::NoToken
    }
}

type Parsed = Result<(), Fault>;

/// Writes the table that a text stands for, or says why it stands for none (49, 50).
pub fn table(text: &[u8], table: &mut Vec<u8>) -> Result<(), Refusal> {
    table.clear();
    let mut parser = Parser {
        tokens: Tokens::new(text),
        table,
    };
    match parser.text() {
        Ok(()) => Ok(()),
        Err(Fault::NoToken) => Err(Refusal::at(49, parser.tokens.start)),
        Err(Fault::OutOfPlace) => Err(parser.out_of_place()),
    }
}

/// The next token, and the table so far.
struct Parser<'a> {
    tokens: Tokens<'a>,
    table: &'a mut Vec<u8>,
}

impl Parser<'_> {
    /// Refuses the next token for its place, unless what is no token stands behind it.
    fn out_of_place(&mut self) -> Refusal {
        let place = self.tokens.start;
        while self.tokens.kind != Kind::End {
            if self.tokens.advance().is_err() {
                return Refusal::at(49, self.tokens.start);
            }
        }
        Refusal::at(50, place)
    }

    fn expect(&mut self, kind: Kind) -> Parsed {
        if self.tokens.kind != kind {
            return Err(Fault::OutOfPlace);
        }
        Ok(self.tokens.advance()?)
    }

    /// Takes a token if it is next.
    #[inline]
    fn take(&mut self, kind: Kind) -> Result<bool, Fault> {
        let here = self.tokens.kind == kind;
        if here {
            self.tokens.advance()?;
        }
        Ok(here)
    }

    /// Takes a symbol: its number.
    fn symbol(&mut self) -> Result<u8, Fault> {
        let number = self.tokens.value as u8;
        self.expect(Kind::Symbol)?;
        Ok(number)
    }

    fn text(&mut self) -> Parsed {
        self.tokens.advance()?;
        let mut declared = 0;
        let mut in_rules = false;
        while self.tokens.kind != Kind::End {
            let symbol = self.symbol()?;
            let slash = self.tokens.kind == Kind::Operation && self.tokens.value == QUOTIENT;
            if slash && symbol == declared && !in_rules {
                self.declaration()?;
                declared += 1;
            } else {
                in_rules = true;
                self.rule(symbol)?;
            }
        }
        self.table.push(END);
        Ok(())
    }

    /// A declaration behind its symbol.
    fn declaration(&mut self) -> Parsed {
        self.tokens.advance()?;
        let arity = self.tokens.value;
        if self.tokens.kind != Kind::Constant || !(0..=PLACES as i32).contains(&arity) {
            return Err(Fault::OutOfPlace);
        }
        self.table.extend([SYMBOL, arity as u8]);
        self.tokens.advance()?;
        self.expect(Kind::Dot)
    }

    /// A rule behind its first symbol.
    fn rule(&mut self, symbol: u8) -> Parsed {
        self.table.push(RULE);
        let first = self.table.len();
        self.heads(KEPT, symbol)?;
        if self.take(Kind::Kept)? {
            let symbol = self.symbol()?;
            self.heads(REMOVED, symbol)?;
            self.expect(Kind::Removes)?;
        } else if self.take(Kind::Removes)? {
            self.remove_from(first);
        } else {
            self.expect(Kind::Keeps)?;
        }
        self.guards()?;
        self.body()?;
        self.expect(Kind::Dot)
    }

    /// Makes all heads from a place on removed ones.
    fn remove_from(&mut self, first: usize) {
        for kind in self.table[first..].iter_mut().step_by(record_len(KEPT)) {
            *kind = REMOVED;
        }
    }

    /// Heads behind their first symbol.
    fn heads(&mut self, kind: u8, mut symbol: u8) -> Parsed {
        loop {
            self.fact(kind, symbol, SLOT_LEN, Parser::slot)?;
            if !self.take(Kind::Comma)? {
                return Ok(());
            }
            symbol = self.symbol()?;
        }
    }

    /// A symbol's arguments, if it has any, in a record of its own.
    #[inline]
    fn fact(
        &mut self,
        kind: u8,
        symbol: u8,
        width: usize,
        argument: fn(&mut Self, usize) -> Parsed,
    ) -> Parsed {
        let at = self.record(kind);
        self.table[at + 1] = symbol;
        if !self.take(Kind::Open)? {
            return Ok(());
        }
        for place in 0..PLACES {
            argument(self, at + 2 + place * width)?;
            if place + 1 == PLACES || !self.take(Kind::Comma)? {
                break;
            }
        }
        self.expect(Kind::Close)
    }

    /// A new record, all zero behind its kind: where it begins.
    #[inline]
    fn record(&mut self, kind: u8) -> usize {
        let at = self.table.len();
        self.table.resize(at + record_len(kind), 0);
        self.table[at] = kind;
        at
    }

    #[inline]
    fn slot(&mut self, at: usize) -> Parsed {
        let tag = match self.tokens.kind {
            Kind::Constant => 1,
            Kind::Variable => 2,
            _ => return Err(Fault::OutOfPlace),
        };
        let slot = &mut self.table[at..at + SLOT_LEN];
        slot[0] = tag;
        slot[1..].copy_from_slice(&self.tokens.value.to_le_bytes());
        Ok(self.tokens.advance()?)
    }

    #[inline]
    fn expression(&mut self, at: usize) -> Parsed {
        self.slot(at + 1)?;
        if self.tokens.kind == Kind::Operation {
            self.table[at] = self.tokens.value as u8;
            self.tokens.advance()?;
            self.slot(at + 1 + SLOT_LEN)?;
        }
        Ok(())
    }

    /// The guards and the bar behind them, if a value is next.
    fn guards(&mut self) -> Parsed {
        if !self.tokens.is_value() {
            return Ok(());
        }
        loop {
            let at = self.record(GUARD);
            self.expression(at + 2)?;
            self.table[at + 1] = self.tokens.value as u8;
            self.expect(Kind::Comparator)?;
            self.expression(at + 2 + EXPRESSION_LEN)?;
            if !self.take(Kind::Comma)? {
                return self.expect(Kind::Bar);
            }
        }
    }

    fn body(&mut self) -> Parsed {
        if self.take(Kind::True)? {
            return Ok(());
        }
        loop {
            if self.take(Kind::Fail)? {
                self.table.push(BODY_FAIL);
            } else {
                let symbol = self.symbol()?;
                self.fact(BODY_FACT, symbol, EXPRESSION_LEN, Parser::expression)?;
            }
            if !self.take(Kind::Comma)? {
                return Ok(());
            }
        }
    }
}

/// The length of a record of a kind that tables hold.
fn record_len(kind: u8) -> usize {
    1 + body_len(kind).unwrap_or(0)
}
