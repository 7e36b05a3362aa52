//! The words of an example's text, each with its place.

use super::{Error, Place};

/// A word.
#[derive(Clone, Debug, PartialEq, Eq)]
pub enum Token {
    /// Begins with a small letter: a symbol, a rule's name, or one of the words with a meaning.
    Name(String),
    /// Begins with a capital letter.
    Variable(String),
    /// Digits, without a sign.
    Number(i64),
    Mark(&'static str),
}

/// A word and its place.
#[derive(Clone, Debug, PartialEq, Eq)]
pub struct Placed {
    pub token: Token,
    pub place: Place,
}

/// Longer marks first, so that none is cut short.
const MARKS: [&str; 21] = [
    "<=>", "==>", "=<", ">=", "\\=", "..", "<", ">", "=", "\\", "|", "@", "+", "-", "*", "/", "%",
    ",", ".", "(", ")",
];

/// Marks of other languages, and what is written here; no good text has them. Longer ones first.
const NO_MARKS: [(&str, &str); 13] = [
    ("<==>", "an arrow is '<=>' or '==>'"),
    ("=\\=", "unequal is '\\='"),
    ("\\==", "unequal is '\\='"),
    ("=:=", "equal is '='"),
    ("=>", "an arrow is '<=>' or '==>', and at least is '>='"),
    ("->", "an arrow is '<=>' or '==>'"),
    ("<=", "at most is '=<'"),
    ("==", "equal is '='"),
    ("!=", "unequal is '\\='"),
    ("/=", "unequal is '\\='"),
    ("<>", "unequal is '\\='"),
    ("//", "a comment begins with '#'"),
    ("_", "a variable begins with a capital letter"),
];

/// All words of a text; `#` begins a comment that ends with its line.
pub fn tokens(text: &str) -> Result<Vec<Placed>, Error> {
    let mut found = Vec::new();
    for (above, line) in text.lines().enumerate() {
        let code = line.split('#').next().unwrap_or("");
        let mut rest = code.trim_start();
        while !rest.is_empty() {
            let before = &code[..code.len() - rest.len()];
            let place = Place {
                line: above + 1,
                column: before.chars().count() + 1,
            };
            let (token, len) = first(rest).map_err(|message| Error { place, message })?;
            found.push(Placed { token, place });
            rest = rest[len..].trim_start();
        }
    }
    Ok(found)
}

/// The word that a text begins with, and its length; or why there is none.
fn first(text: &str) -> Result<(Token, usize), String> {
    match text.chars().next() {
        Some(begin) if begin.is_ascii_digit() => number(text),
        Some(begin) if begin.is_ascii_alphabetic() => Ok(word(text)),
        _ => mark(text),
    }
}

/// What of a text comes before the first character that is not inside.
fn leading(text: &str, inside: fn(char) -> bool) -> &str {
    &text[..text.find(|c| !inside(c)).unwrap_or(text.len())]
}

fn number(text: &str) -> Result<(Token, usize), String> {
    let digits = leading(text, |c| c.is_ascii_digit());
    let behind = text[digits.len()..].strip_prefix('.').unwrap_or("");
    let fraction = leading(behind, |c| c.is_ascii_digit());
    if !fraction.is_empty() {
        return Err(with_fraction(digits, fraction));
    }
    let too_long = |_| format!("{} does not fit 32 bits", digits);
    let number = digits.parse().map_err(too_long)?;
    Ok((Token::Number(number), digits.len()))
}

/// What to write for a number with a fraction: thousandths, cut to a whole number.
fn with_fraction(whole: &str, fraction: &str) -> String {
    let padded = format!("{}{:0<3.3}", whole, fraction);
    let thousandths = match padded.trim_start_matches('0') {
        "" => "0",
        digits => digits,
    };
    format!(
        "numbers are whole: {}.{} has a fraction; in thousandths write {}",
        whole, fraction, thousandths
    )
}

/// A name or a variable.
fn word(text: &str) -> (Token, usize) {
    let word = leading(text, |c| c.is_ascii_alphanumeric() || c == '_');
    let capital = word.starts_with(|c: char| c.is_ascii_uppercase());
    let token = if capital {
        Token::Variable
    } else {
        Token::Name
    };
    (token(word.to_string()), word.len())
}

/// A mark, unless a longer one of another language stands there.
fn mark(text: &str) -> Result<(Token, usize), String> {
    let mark = MARKS.iter().find(|mark| text.starts_with(**mark));
    let len = mark.map_or(0, |mark| mark.len());
    let no_mark = NO_MARKS
        .iter()
        .find(|(wrong, _)| wrong.len() > len && text.starts_with(wrong));
    match (no_mark, mark) {
        (Some((wrong, advice)), _) => Err(format!("'{}' is no mark: {}", wrong, advice)),
        (None, Some(mark)) => Ok((Token::Mark(mark), len)),
        (None, None) => {
            let begin = text.chars().next().unwrap_or(' ');
            Err(format!("no word begins with '{}'", begin))
        }
    }
}
