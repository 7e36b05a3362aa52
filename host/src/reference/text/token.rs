//! The tokens of a text. The longest one is taken, and a run of letters and digits is never split.

use crate::format::{MAX_SYMBOLS, VARIABLES};
use crate::names::Symbol;
use crate::reference::table::Variable;

/// A token.
#[derive(Clone, Copy, Debug, PartialEq, Eq)]
pub enum Token {
    /// `s0` to `s31`.
    Symbol(Symbol),
    /// `V0` to `V15`.
    Variable(Variable),
    Constant(i32),
    /// `true`.
    True,
    /// `fail`.
    Fail,
    /// One of [`MARKS`].
    Mark(&'static str),
}

/// A token, and its first byte's offset in the text.
#[derive(Clone, Copy, Debug, PartialEq, Eq)]
pub struct Placed {
    pub token: Token,
    pub at: usize,
}

/// The tokens that have neither letters nor digits.
pub const MARKS: [&str; 19] = [
    "\\", "<=>", "==>", "|", "=", "\\=", "<", "=<", ">", ">=", "+", "-", "*", "/", "%", "(", ")",
    ",", ".",
];

/// What may stand between tokens: a space and the bytes that end lines.
const BETWEEN: [u8; 3] = [32, 10, 13];

/// All tokens of a text, or the first byte where none begins.
pub fn tokens(text: &[u8]) -> Result<Vec<Placed>, usize> {
    let mut found: Vec<Placed> = Vec::new();
    let mut at = 0;
    while at < text.len() {
        if BETWEEN.contains(&text[at]) {
            at += 1;
            continue;
        }
        let before = found.last().map(|placed| placed.token);
        let (token, len) = first(&text[at..], before).ok_or(at)?;
        found.push(Placed { token, at });
        at += len;
    }
    Ok(found)
}

/// The token that these bytes begin with, behind the token before them, and its length.
fn first(bytes: &[u8], before: Option<Token>) -> Option<(Token, usize)> {
    let sign = usize::from(bytes[0] == b'-' && !before.map_or(false, Token::is_value));
    let run = run_len(&bytes[sign..]);
    if sign == 0 && run == 0 {
        let mark = longest_mark(bytes)?;
        return Some((Token::Mark(mark), mark.len()));
    }
    let len = sign + run;
    Some((word(&bytes[..len])?, len))
}

/// How many letters and digits these bytes begin with.
fn run_len(bytes: &[u8]) -> usize {
    let in_run = bytes.iter().take_while(|byte| byte.is_ascii_alphanumeric());
    in_run.count()
}

/// The longest mark that these bytes begin with.
fn longest_mark(bytes: &[u8]) -> Option<&'static str> {
    let here = MARKS
        .iter()
        .filter(|mark| bytes.starts_with(mark.as_bytes()));
    here.max_by_key(|mark| mark.len()).copied()
}

/// The token that a whole run of letters and digits is, perhaps with a minus in front.
fn word(word: &[u8]) -> Option<Token> {
    match word {
        b"true" => Some(Token::True),
        b"fail" => Some(Token::Fail),
        _ => symbol(word)
            .or_else(|| variable(word))
            .or_else(|| constant(word)),
    }
}

fn symbol(word: &[u8]) -> Option<Token> {
    let number = numbered(b"s", MAX_SYMBOLS, word)?;
    Some(Token::Symbol(Symbol(number)))
}

fn variable(word: &[u8]) -> Option<Token> {
    let number = numbered(b"V", VARIABLES, word)?;
    Some(Token::Variable(Variable(number)))
}

/// The number, below `end`, that makes a name of exactly this spelling.
fn numbered(letter: &[u8], end: usize, word: &[u8]) -> Option<u8> {
    let digits = word.strip_prefix(letter)?;
    let mut numbers = 0..end as u8;
    numbers.find(|number| number.to_string().as_bytes() == digits)
}

/// A decimal number in the range of 32 bits; zeros may stand in front.
fn constant(word: &[u8]) -> Option<Token> {
    let digits = word.strip_prefix(b"-").unwrap_or(word);
    if !digits.iter().all(u8::is_ascii_digit) {
        return None;
    }
    let decimal = std::str::from_utf8(word).ok()?;
    decimal.parse().ok().map(Token::Constant)
}

impl Token {
    /// Whether a minus behind this token is the operation: it is a constant or a variable.
    pub fn is_value(self) -> bool {
        matches!(self, Token::Constant(_) | Token::Variable(_))
    }
}

#[cfg(test)]
mod tests {
    use super::Token::{Constant, Fail, Mark, True};
    use super::*;

    const S0: Token = Token::Symbol(Symbol(0));
    const V0: Token = Token::Variable(Variable(0));

    /// The tokens of a text that has nothing else.
    fn all(text: &str) -> Vec<Token> {
        let found = tokens(text.as_bytes()).expect("nothing but tokens");
        found.into_iter().map(|placed| placed.token).collect()
    }

    /// Where a text has no token.
    fn none(text: &[u8]) -> usize {
        tokens(text).expect_err("there is no token")
    }

    #[test]
    fn every_token_is_read_as_itself() {
        for number in 0..32 {
            let name = format!("s{}", number);
            assert_eq!(all(&name), [Token::Symbol(Symbol(number))]);
        }
        for number in 0..16 {
            let name = format!("V{}", number);
            assert_eq!(all(&name), [Token::Variable(Variable(number))]);
        }
        for mark in MARKS.into_iter().filter(|mark| *mark != "-") {
            assert_eq!(all(mark), [Mark(mark)]);
        }
        assert_eq!(
            all("true fail 0 V0-"),
            [True, Fail, Constant(0), V0, Mark("-")]
        );
    }

    #[test]
    fn a_run_of_letters_and_digits_is_one_token_or_none() {
        for run in [
            "s",
            "S0",
            "s00",
            "s01",
            "s32",
            "s100",
            "V",
            "v0",
            "V00",
            "V16",
            "s0s1",
            "V0V1",
            "1a",
            "0x1",
            "s0a",
            "trues0",
            "TRUE",
            "truefail",
            "fai",
            "true1",
            "1s0",
            "2147483648",
            "a",
        ] {
            assert_eq!(none(run.as_bytes()), 0, "{}", run);
            assert_eq!(none(format!("s0 ( {}", run).as_bytes()), 5, "{}", run);
        }
        assert_eq!(all("s0(V0)"), [S0, Mark("("), V0, Mark(")")]);
    }

    #[test]
    fn the_longest_mark_is_taken() {
        assert_eq!(all("=<"), [Mark("=<")]);
        assert_eq!(all("= <"), [Mark("="), Mark("<")]);
        assert_eq!(all("<=>"), [Mark("<=>")]);
        assert_eq!(all("<= >"), [Mark("<"), Mark("="), Mark(">")]);
        assert_eq!(all("<=>="), [Mark("<=>"), Mark("=")]);
        assert_eq!(all("=<=>"), [Mark("=<"), Mark("="), Mark(">")]);
        assert_eq!(all("===>"), [Mark("="), Mark("==>")]);
        assert_eq!(all("<==>"), [Mark("<"), Mark("==>")]);
        assert_eq!(all("\\==>"), [Mark("\\="), Mark("="), Mark(">")]);
        assert_eq!(all("\\<=>"), [Mark("\\"), Mark("<=>")]);
        assert_eq!(all(">=="), [Mark(">="), Mark("=")]);
    }

    #[test]
    fn a_minus_belongs_to_a_constant_unless_a_value_stands_before_it() {
        let minus = Mark("-");
        assert_eq!(all("V0-5"), [V0, minus, Constant(5)]);
        assert_eq!(all("V0 - 5"), [V0, minus, Constant(5)]);
        assert_eq!(all("V0--5"), [V0, minus, Constant(-5)]);
        assert_eq!(all("V0\n- -5"), [V0, minus, Constant(-5)]);
        assert_eq!(
            all("3-5-7"),
            [Constant(3), minus, Constant(5), minus, Constant(7)]
        );
        assert_eq!(all("-5-5"), [Constant(-5), minus, Constant(5)]);
        assert_eq!(all("s0-5"), [S0, Constant(-5)]);
        assert_eq!(all("true-5"), [True, Constant(-5)]);
        assert_eq!(all(")-5"), [Mark(")"), Constant(-5)]);
        assert_eq!(none(b"- 5"), 0);
        assert_eq!(none(b"V0---5"), 3);
        assert_eq!(none(b"s0(-V0)"), 3);
        assert_eq!(none(b"s0(-5a)"), 3);
        assert_eq!(none(b"s0(-)"), 3);
    }

    #[test]
    fn constants_are_those_of_32_bits_in_any_spelling() {
        assert_eq!(all("2147483647"), [Constant(i32::MAX)]);
        assert_eq!(all("-2147483648"), [Constant(i32::MIN)]);
        assert_eq!(all("0002147483647"), [Constant(i32::MAX)]);
        assert_eq!(all("-0002147483648"), [Constant(i32::MIN)]);
        assert_eq!(all("-0"), [Constant(0)]);
        assert_eq!(all("00007"), [Constant(7)]);
        let zeros = "0".repeat(700);
        assert_eq!(all(&format!("{}12", zeros)), [Constant(12)]);
        assert_eq!(all(&format!("-{}12", zeros)), [Constant(-12)]);
        assert_eq!(none("9".repeat(700).as_bytes()), 0);
        assert_eq!(none(b"-2147483649"), 0);
        assert_eq!(none(b"1 - 2147483648"), 4);
    }

    #[test]
    fn no_other_byte_is_a_token_or_stands_between_tokens() {
        let good =
            b"abcdefghijklmnopqrstuvwxyzABCDEFGHIJKLMNOPQRSTUVWXYZ0123456789\\<>=|+-*/%(),. \n\r";
        for byte in 0..=255_u8 {
            let begins = tokens(&[b'V', b'0', b' ', byte]);
            match byte {
                _ if !good.contains(&byte) => assert_eq!(begins, Err(3), "{}", byte),
                b' ' | b'\n' | b'\r' => assert_eq!(begins.map(|all| all.len()), Ok(1)),
                _ if byte.is_ascii_alphabetic() => assert_eq!(begins, Err(3), "{}", byte),
                _ => assert_eq!(begins.map(|all| all.len()), Ok(2), "{}", byte),
            }
        }
    }
}
