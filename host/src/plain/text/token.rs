//! Tokens, one after the other.

use crate::format::{MAX_SYMBOLS, VARIABLES};

/// What a token is, without its value.
#[derive(Clone, Copy, Debug, PartialEq, Eq)]
pub enum Kind {
    Symbol,
    Variable,
    Constant,
    True,
    Fail,
    Comparator,
    Operation,
    /// `\`.
    Kept,
    /// `<=>`.
    Removes,
    /// `==>`.
    Keeps,
    /// `|`.
    Bar,
    Open,
    Close,
    Comma,
    Dot,
    /// Behind the last token, and before the first.
    End,
}

/// The value of the operation `/`.
pub const QUOTIENT: i32 = 4;

/// No token begins where one should.
pub struct NoToken;

/// A token of a text.
pub struct Tokens<'a> {
    text: &'a [u8],
    /// The first byte behind it.
    at: usize,
    pub kind: Kind,
    /// The number of a symbol or a variable, the byte of a comparator or an operation, a constant.
    pub value: i32,
    /// Its first byte; the text's length at the end.
    pub start: usize,
}

impl<'a> Tokens<'a> {
    /// The place before the first token.
    pub fn new(text: &'a [u8]) -> Tokens<'a> {
        Tokens {
            text,
            at: 0,
            kind: Kind::End,
            value: 0,
            start: 0,
        }
    }

    /// Whether the token is a constant or a variable.
    pub fn is_value(&self) -> bool {
        matches!(self.kind, Kind::Constant | Kind::Variable)
    }

    /// Goes on to the next token.
    pub fn advance(&mut self) -> Result<(), NoToken> {
        while matches!(self.byte(0), b' ' | b'\n' | b'\r') {
            self.at += 1;
        }
        self.start = self.at;
        if self.at >= self.text.len() {
            self.kind = Kind::End;
            return Ok(());
        }
        self.kind = self.token().ok_or(NoToken)?;
        Ok(())
    }

    /// A byte ahead; 0, which is in no token, behind the text.
    #[inline]
    fn byte(&self, ahead: usize) -> u8 {
        self.text.get(self.at + ahead).copied().unwrap_or(0)
    }

    #[inline]
    fn token(&mut self) -> Option<Kind> {
        match self.byte(0) {
            b'0'..=b'9' => self.constant(1),
            b's' => self.numbered(MAX_SYMBOLS as i32, Kind::Symbol),
            b'V' => self.numbered(VARIABLES as i32, Kind::Variable),
            b't' => self.word(b"true", Kind::True),
            b'f' => self.word(b"fail", Kind::Fail),
            b'-' if !self.is_value() => {
                self.at += 1;
                self.constant(-1)
            }
            _ => self.mark(),
        }
    }

    /// Digits up to the end of the run.
    #[inline]
    fn constant(&mut self, sign: i64) -> Option<Kind> {
        const PAST: i64 = 1 << 40;
        let first = self.at;
        let mut value = 0;
        while self.byte(0).is_ascii_digit() {
            value = (10 * value + i64::from(self.byte(0) - b'0')).min(PAST);
            self.at += 1;
        }
        if self.at == first || self.byte(0).is_ascii_alphabetic() {
            return None;
        }
        self.value = i32::try_from(sign * value).ok()?;
        Some(Kind::Constant)
    }

    /// A letter and a number below `end` of one or two digits, up to the end of the run.
    #[inline]
    fn numbered(&mut self, end: i32, kind: Kind) -> Option<Kind> {
        let digit = |byte: u8| byte.is_ascii_digit().then(|| i32::from(byte - b'0'));
        let first = digit(self.byte(1))?;
        let (number, len) = match digit(self.byte(2)) {
            None => (first, 2),
            Some(_) if first == 0 => return None,
            Some(second) => (10 * first + second, 3),
        };
        if number >= end || self.byte(len).is_ascii_alphanumeric() {
            return None;
        }
        self.at += len;
        self.value = number;
        Some(kind)
    }

    /// Four letters, up to the end of the run.
    fn word(&mut self, word: &[u8; 4], kind: Kind) -> Option<Kind> {
        let here = self.text[self.at..].starts_with(word);
        if !here || self.byte(4).is_ascii_alphanumeric() {
            return None;
        }
        self.at += 4;
        Some(kind)
    }

    /// The longest mark.
    #[inline]
    fn mark(&mut self) -> Option<Kind> {
        let (kind, value, len) = match (self.byte(0), self.byte(1), self.byte(2)) {
            (b'(', ..) => (Kind::Open, 0, 1),
            (b')', ..) => (Kind::Close, 0, 1),
            (b',', ..) => (Kind::Comma, 0, 1),
            (b'.', ..) => (Kind::Dot, 0, 1),
            (b'|', ..) => (Kind::Bar, 0, 1),
            (b'<', b'=', b'>') => (Kind::Removes, 0, 3),
            (b'=', b'=', b'>') => (Kind::Keeps, 0, 3),
            (b'\\', b'=', _) => (Kind::Comparator, 1, 2),
            (b'\\', ..) => (Kind::Kept, 0, 1),
            (b'<', ..) => (Kind::Comparator, 2, 1),
            (b'=', b'<', _) => (Kind::Comparator, 3, 2),
            (b'=', ..) => (Kind::Comparator, 0, 1),
            (b'>', b'=', _) => (Kind::Comparator, 5, 2),
            (b'>', ..) => (Kind::Comparator, 4, 1),
            (b'+', ..) => (Kind::Operation, 1, 1),
            (b'-', ..) => (Kind::Operation, 2, 1),
            (b'*', ..) => (Kind::Operation, 3, 1),
            (b'/', ..) => (Kind::Operation, QUOTIENT, 1),
            (b'%', ..) => (Kind::Operation, 5, 1),
            _ => return None,
        };
        self.at += len;
        self.value = value;
        Some(kind)
    }
}
