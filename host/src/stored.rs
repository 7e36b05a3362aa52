//! The form in which cases are stored and given to a program that calls the proved library, and
//! the line that the program has to print for each.
//!
//! A case is a kind byte (`C`, `R`, `W`, `F`, `T` or `P`), five little-endian words (lengths of
//! table, goal and weights, step limit, length of the answer buffer), then table, goal and weights.
//! Behind the last case stands one byte `.`. The answer buffer is full of 0xA5 before each run;
//! where weights are looked for, those of the case are what the buffer holds before. Of `T` the text
//! to read stands where the table does, and the answer buffer is the room for its table; of `P` it
//! is the room for the text.

use crate::cases::{Call, Case};
use crate::format::STORED_RECORD_LEN;
use crate::verdict::{Verdict, FILL};

/// The byte behind the last case.
pub const END: u8 = b'.';

/// A case's bytes.
pub fn case(case: &Case) -> Vec<u8> {
    let mut bytes = vec![letter(case.call) as u8];
    let words = [
        case.table.len() as u32,
        case.goal.len() as u32,
        case.weights.len() as u32,
        case.limit,
        case.answer_len as u32,
    ];
    for word in words {
        bytes.extend(word.to_le_bytes());
    }
    for part in [&case.table, &case.goal, &case.weights] {
        bytes.extend(part);
    }
    bytes
}

/// The cases that stored bytes hold, up to the byte behind the last one; nothing if they hold
/// something else.
pub fn cases(mut bytes: &[u8]) -> Option<Vec<Case>> {
    let mut found = Vec::new();
    while *bytes != [END] {
        found.push(next_case(&mut bytes)?);
    }
    Some(found)
}

/// Takes a case off the front of stored bytes.
fn next_case(bytes: &mut &[u8]) -> Option<Case> {
    let kind = char::from(take(bytes, 1)?[0]);
    let mut words = [0; 5];
    for word in &mut words {
        *word = u32::from_le_bytes(take(bytes, 4)?.try_into().ok()?);
    }
    let [table, goal, weights, limit, answer_len] = words;
    let mut part = |len: u32| Some(take(bytes, len as usize)?.to_vec());
    Some(Case {
        call: CALLS.into_iter().find(|call| letter(*call) == kind)?,
        table: part(table)?,
        goal: part(goal)?,
        weights: part(weights)?,
        limit,
        answer_len: answer_len as usize,
    })
}

/// Takes so many bytes off the front.
fn take<'a>(bytes: &mut &'a [u8], len: usize) -> Option<&'a [u8]> {
    let taken = bytes.get(..len)?;
    *bytes = &bytes[len..];
    Some(taken)
}

/// The line expected for a case.
pub fn line(case: &Case, verdict: &Verdict) -> String {
    let mut words = vec![letter(case.call).to_string()];
    words.extend(verdict.outcome.words().iter().map(u32::to_string));
    match case.call {
        Call::Check => {}
        Call::Run => words.extend(answer_words(verdict)),
        Call::Weigh => words.extend(verdict.bound.iter().map(u32::to_string)),
        Call::FindWeights => words.extend(bytes_word(&verdict.weights)),
        Call::ReadText | Call::PrintText => words.extend(text_words(verdict)),
    }
    words.join(" ")
}

const CALLS: [Call; 6] = [
    Call::Check,
    Call::Run,
    Call::Weigh,
    Call::FindWeights,
    Call::ReadText,
    Call::PrintText,
];

/// The letter that a case and its line begin with.
fn letter(call: Call) -> char {
    match call {
        Call::Check => 'C',
        Call::Run => 'R',
        Call::Weigh => 'W',
        Call::FindWeights => 'F',
        Call::ReadText => 'T',
        Call::PrintText => 'P',
    }
}

/// The records of a done run in hexadecimal.
fn answer_words(verdict: &Verdict) -> Vec<String> {
    let stored = match verdict.outcome.number {
        0 => verdict.outcome.stored as usize,
        _ => 0,
    };
    written_words(verdict, stored * STORED_RECORD_LEN)
}

/// How many bytes were read or printed, and these in hexadecimal.
fn text_words(verdict: &Verdict) -> Vec<String> {
    let mut words = vec![verdict.length.to_string()];
    words.extend(written_words(verdict, verdict.length as usize));
    words
}

/// The bytes that a call wrote, if there are any; then that all other bytes of the buffer keep what
/// they held.
fn written_words(verdict: &Verdict, written: usize) -> Vec<String> {
    let (written, behind) = verdict.answer.split_at(written);
    assert!(behind.iter().all(|byte| *byte == FILL));
    let mut words = Vec::from_iter(bytes_word(written));
    words.push("keeps".to_string());
    words
}

/// Bytes in hexadecimal, if there are any.
fn bytes_word(bytes: &[u8]) -> Option<String> {
    (!bytes.is_empty()).then(|| hexadecimal(bytes))
}

fn hexadecimal(bytes: &[u8]) -> String {
    let digit = |four: u8| char::from(b"0123456789abcdef"[usize::from(four)]);
    let digits = bytes.iter().flat_map(|byte| [byte >> 4, byte & 15]);
    digits.map(digit).collect()
}
