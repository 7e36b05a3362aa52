//! Tests a table in one pass, and hands each part to a sink as soon as it is tested. A sink that
//! takes nothing leaves a plain check.

use super::expression::{Expression, Slot, CONSTANT, VARIABLE};
use crate::format::{
    body_len, BODY_FACT, BODY_FAIL, END, EXPRESSION_LEN, GUARD, KEPT, MAX_GUARDS, MAX_HEADS,
    MAX_ITEMS, MAX_RULES, MAX_SYMBOLS, PLACES, REMOVED, RULE, SLOT_LEN, SYMBOL, VARIABLES,
};
use crate::outcome::Refusal;

/// What takes in the parts of the rules, in the order of the bytes.
pub trait Sink {
    fn rule(&mut self) {}
    fn head(&mut self, _kind: u8, _symbol: u8) {}
    fn slot(&mut self, _place: usize, _slot: Slot) {}
    fn guard(&mut self, _comparator: u8, _left: Expression, _right: Expression) {}
    fn fact(&mut self, _symbol: u8, _arity: usize) {}
    fn argument(&mut self, _place: usize, _argument: Expression) {}
    fn fail(&mut self) {}
}

impl Sink for () {}

/// The declared symbols.
pub struct Symbols {
    arities: [u8; MAX_SYMBOLS],
    count: usize,
}

impl Symbols {
    pub fn arity(&self, symbol: u8) -> Option<usize> {
        let symbol = usize::from(symbol);
        (symbol < self.count).then(|| usize::from(self.arities[symbol]))
    }
}

/// What the records before an offset have said.
struct Reader<'a, S> {
    sink: &'a mut S,
    symbols: Symbols,
    rules: usize,
    /// The kind of the last record read, 0 before the first.
    last: u8,
    /// The parts of the rule that is being read.
    heads: usize,
    guards: usize,
    items: usize,
    /// A bit for each variable that a head of it names.
    named: u32,
}

/// Reads a table up to its last byte.
pub fn read<S: Sink>(bytes: &[u8], sink: &mut S) -> Result<Symbols, Refusal> {
    let mut reader = Reader {
        sink,
        symbols: Symbols {
            arities: [0; MAX_SYMBOLS],
            count: 0,
        },
        rules: 0,
        last: 0,
        heads: 0,
        guards: 0,
        items: 0,
        named: 0,
    };
    let mut at = 0;
    while at < bytes.len() {
        let kind = bytes[at];
        let len = match reader.record(&bytes[at..]) {
            Ok(len) => len,
            Err(number) => return Err(Refusal::at(number, at)),
        };
        at += len;
        if kind == END {
            return match at == bytes.len() {
                true => Ok(reader.symbols),
                false => Err(Refusal::at(23, at)),
            };
        }
        reader.last = kind;
    }
    Err(Refusal::at(17, at))
}

impl<S: Sink> Reader<'_, S> {
    /// Tests one record and takes it in: its length, or the number it is refused with.
    fn record(&mut self, bytes: &[u8]) -> Result<usize, u32> {
        let kind = bytes[0];
        let len = 1 + body_len(kind).ok_or(16_u32)?;
        if bytes.len() < len {
            return Err(17);
        }
        if self.out_of_order(kind) {
            return Err(18);
        }
        let headless = self.last == RULE;
        if headless && kind != KEPT && kind != REMOVED {
            return Err(21);
        }
        let body = &bytes[1..len];
        match kind {
            SYMBOL => self.symbol(body[0])?,
            RULE => self.rule()?,
            KEPT | REMOVED => self.head(kind, body)?,
            GUARD => self.guard(body)?,
            BODY_FACT => self.fact(body)?,
            BODY_FAIL => self.fail()?,
            _ => {}
        }
        Ok(len)
    }

    /// Inside a rule the kinds never fall, body facts and fails counting as one.
    fn out_of_order(&self, kind: u8) -> bool {
        let latest = match kind {
            SYMBOL => return self.last > SYMBOL,
            RULE | END => return false,
            BODY_FACT | BODY_FAIL => BODY_FAIL,
            _ => kind,
        };
        self.last < RULE || self.last > latest
    }

    fn symbol(&mut self, arity: u8) -> Result<(), u32> {
        if self.symbols.count == MAX_SYMBOLS {
            return Err(19);
        }
        if usize::from(arity) > PLACES {
            return Err(20);
        }
        self.symbols.arities[self.symbols.count] = arity;
        self.symbols.count += 1;
        Ok(())
    }

    fn rule(&mut self) -> Result<(), u32> {
        count(&mut self.rules, MAX_RULES)?;
        self.heads = 0;
        self.guards = 0;
        self.items = 0;
        self.named = 0;
        self.sink.rule();
        Ok(())
    }

    fn head(&mut self, kind: u8, body: &[u8]) -> Result<(), u32> {
        count(&mut self.heads, MAX_HEADS)?;
        let arity = self.symbols.arity(body[0]).ok_or(20_u32)?;
        self.sink.head(kind, body[0]);
        for (place, bytes) in body[1..].chunks_exact(SLOT_LEN).enumerate() {
            let slot = slot(bytes, place < arity).ok_or(20_u32)?;
            self.named |= slot.variables();
            self.sink.slot(place, slot);
        }
        Ok(())
    }

    fn guard(&mut self, body: &[u8]) -> Result<(), u32> {
        count(&mut self.guards, MAX_GUARDS)?;
        if body[0] > 5 {
            return Err(20);
        }
        let left = expression(&body[1..], true).ok_or(20_u32)?;
        let right = expression(&body[1 + EXPRESSION_LEN..], true).ok_or(20_u32)?;
        self.sink.guard(body[0], left, right);
        self.all_named(left.variables() | right.variables())
    }

    fn fact(&mut self, body: &[u8]) -> Result<(), u32> {
        count(&mut self.items, MAX_ITEMS)?;
        let arity = self.symbols.arity(body[0]).ok_or(20_u32)?;
        self.sink.fact(body[0], arity);
        let mut variables = 0;
        for (place, bytes) in body[1..].chunks_exact(EXPRESSION_LEN).enumerate() {
            let argument = expression(bytes, place < arity).ok_or(20_u32)?;
            variables |= argument.variables();
            self.sink.argument(place, argument);
        }
        self.all_named(variables)
    }

    fn fail(&mut self) -> Result<(), u32> {
        count(&mut self.items, MAX_ITEMS)?;
        self.sink.fail();
        Ok(())
    }

    /// 22 is tested behind 20 of the whole record.
    fn all_named(&self, variables: u32) -> Result<(), u32> {
        match variables & !self.named {
            0 => Ok(()),
            _ => Err(22),
        }
    }
}

/// One more of a sort, unless it is one too many.
fn count(n: &mut usize, most: usize) -> Result<(), u32> {
    if *n == most {
        return Err(19);
    }
    *n += 1;
    Ok(())
}

/// A slot; an unused one is zero in every byte.
fn slot(bytes: &[u8], used: bool) -> Option<Slot> {
    if !used {
        return zero(&bytes[..SLOT_LEN]).then(Slot::default);
    }
    let value = i32::from_le_bytes([bytes[1], bytes[2], bytes[3], bytes[4]]);
    let good = match bytes[0] {
        CONSTANT => true,
        VARIABLE => (value as u32) < VARIABLES as u32,
        _ => false,
    };
    good.then(|| Slot {
        tag: bytes[0],
        value,
    })
}

/// An expression; an unused one is zero in every byte.
fn expression(bytes: &[u8], used: bool) -> Option<Expression> {
    if !used {
        return zero(&bytes[..EXPRESSION_LEN]).then(Expression::default);
    }
    let operation = bytes[0];
    if operation > 5 {
        return None;
    }
    Some(Expression {
        operation,
        first: slot(&bytes[1..], true)?,
        second: slot(&bytes[1 + SLOT_LEN..], operation != 0)?,
    })
}

/// Whether every byte is zero.
pub fn zero(bytes: &[u8]) -> bool {
    bytes.iter().all(|byte| *byte == 0)
}
