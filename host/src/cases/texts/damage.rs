//! Damaged texts, word by word and byte by byte.

use super::words::Words;
use crate::cases::random::Random;
use crate::reference::text::token::MARKS;

/// Words that are tokens, beside marks.
#[rustfmt::skip]
const TOKENS: [&str; 22] = [
    "s0", "s1", "s2", "s3", "s10", "s31", "V0", "V1", "V9", "V15", "true", "fail",
    "0", "1", "4", "5", "04", "-0", "-1", "-5", "2147483647", "-2147483648",
];
/// Words that are none, or that begin with none.
#[rustfmt::skip]
const NO_TOKENS: [&str; 16] = [
    "2147483648", "-2147483649", "99999999999999999999", "s32", "s01", "V16", "V00", "v0", "S0",
    "tru", "trues0", "1a", "s", "V", "- 5", "_",
];

/// Any word: a mark, another token, or at times none.
pub fn any_word(random: &mut Random) -> String {
    match random.below(100) {
        0..=49 => random.pick(&MARKS).to_string(),
        50..=89 => random.pick(&TOKENS).to_string(),
        _ => no_token(random),
    }
}

/// A word that is no token.
pub fn no_token(random: &mut Random) -> String {
    random.pick(&NO_TOKENS).to_string()
}

fn any_place<T>(random: &mut Random, list: &[T]) -> usize {
    random.below(list.len() as u64) as usize
}

/// Damages a text's words.
pub fn words(random: &mut Random, words: &mut Words) {
    if words.is_empty() {
        return words.push(any_word(random));
    }
    let at = any_place(random, words);
    match random.below(10) {
        0..=2 => words[at] = any_word(random),
        3 | 4 => words.insert(at, any_word(random)),
        5 => {
            words.remove(at);
        }
        6 => words.insert(at, words[at].clone()),
        7 => {
            let other = any_place(random, words);
            words.swap(at, other);
        }
        8 => {
            words.drain(..at);
        }
        _ => words.truncate(at),
    }
}

/// Bytes that are seldom in a text, or that join with others.
const BYTES: &[u8] = b"-=<>\\|/%*+.,()_ \t\n\r0159sVtrufail#'\"{}@\x00\x7F\x80\xFF";

fn any_byte(random: &mut Random) -> u8 {
    match random.chance(75) {
        true => *random.pick(BYTES),
        false => random.byte(),
    }
}

/// Damages a text's bytes.
pub fn bytes(random: &mut Random, text: &mut Vec<u8>) {
    if text.is_empty() {
        return text.push(any_byte(random));
    }
    let at = any_place(random, text);
    match random.below(10) {
        0..=3 => text[at] = any_byte(random),
        4 | 5 => text.insert(at, any_byte(random)),
        6 | 7 => {
            text.remove(at);
        }
        8 => text.insert(at, text[at]),
        _ => text.truncate(at),
    }
}
