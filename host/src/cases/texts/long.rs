//! Texts near the greatest length, and texts whose tables are much longer than a good one.

use super::words::{self, Words};
use super::{damage, good_words};
use crate::cases::random::Random;
use crate::cases::tables;
use crate::cases::Case;
use crate::format::{LONGEST_TABLE, MAX_TEXT};
use crate::reference::text::read::stands_for;

/// A long text: padded, with a long constant, with very many parts, or that of a full table.
pub fn case(random: &mut Random) -> Case {
    let mut text = match random.below(10) {
        0..=2 => padded(random),
        3 => long_constant(random),
        4..=7 => many(random),
        _ => full(random),
    };
    if random.chance(25) {
        damage_end(random, &mut text);
    }
    let len = stands_for(&text).map_or(LONGEST_TABLE, |table| table.len());
    let room = *random.pick(&[len, len, len - 1, LONGEST_TABLE, 0]);
    Case::read_text(text, room)
}

/// Damages one of the last bytes.
fn damage_end(random: &mut Random, text: &mut Vec<u8>) {
    let mut end = text.split_off(text.len().saturating_sub(20));
    damage::bytes(random, &mut end);
    text.extend(end);
}

/// The greatest length, or one less or more.
fn near_the_end(random: &mut Random) -> usize {
    *random.pick(&[MAX_TEXT - 1, MAX_TEXT, MAX_TEXT + 1])
}

/// A good text, or one that is cut off or has a damaged word, with as much space between two words as
/// makes it long.
fn padded(random: &mut Random) -> Vec<u8> {
    let mut words = good_words(random);
    match random.below(3) {
        0 => words.truncate(random.between(0, words.len())),
        1 => damage::words(random, &mut words),
        _ => {}
    }
    let any = random.between(0, words.len());
    let at = *random.pick(&[0, any, words.len()]);
    let [mut front, back] = [&words[..at], &words[at..]].map(|part| {
        let part: Words = part.to_vec();
        words::spaced(random, &part)
    });
    let len = near_the_end(random);
    let space = *random.pick(b" \n\r");
    front.resize(len.saturating_sub(back.len()).max(front.len()), space);
    front.extend(back);
    front
}

/// A constant with so many zeros in front that the text is long, or with so many other digits.
fn long_constant(random: &mut Random) -> Vec<u8> {
    let [before, behind] = *random.pick(&[
        ["s0/1.s0(", "7)<=>true."],
        ["s0/1.s0(-", "7)<=>true."],
        ["s0/1.s0(V0)<=>V0-", "7<0|true."],
        ["s0/", "1."],
        ["s0/-", "0."],
    ]);
    let digit = random.pick(&["0", "0", "0", "9"]);
    let len = near_the_end(random);
    let digits = digit.repeat(len - before.len() - behind.len());
    [before, &digits, behind].concat().into_bytes()
}

/// What very many of a sort are made of: what stands before them, one of them, what stands behind.
pub const MANY: [[&str; 3]; 11] = [
    ["s0", ",s0", "<=>true."],
    ["s0", ",s0", "==>true."],
    ["s0\\s0", ",s0", "<=>true."],
    ["s0,s0\\s0", ",s0(0,V1)", "<=>true."],
    ["s0<=>s0", ",s0", "."],
    ["s0<=>s0", ",s0(V0)", "."],
    ["s0<=>fail", ",fail", "."],
    ["s0<=>0=0", ",0=0", "|true."],
    ["s0<=>V0\\=0", ",1-1=<0", "|s0."],
    ["", "s0<=>true.", ""],
    ["", "s0==>0<0|s0.", ""],
];

/// A text of so many bytes, all but a few of them of one sort.
pub fn many_of([before, one, behind]: [&str; 3], len: usize) -> Vec<u8> {
    let rest = before.len() + behind.len();
    let count = len.saturating_sub(rest) / one.len();
    let mut text = [before, &one.repeat(count), behind].concat();
    while text.len() < len {
        text.push('\n');
    }
    text.into_bytes()
}

/// Very many heads, guards, items or rules, behind a declaration or behind none. At times a byte is
/// damaged.
fn many(random: &mut Random) -> Vec<u8> {
    let declared = *random.pick(&["", "s0/0."]);
    let near = near_the_end(random);
    let fewer = random.between(1_000, MAX_TEXT);
    let len = *random.pick(&[near, fewer]);
    let sort = *random.pick(&MANY);
    let mut text = declared.as_bytes().to_vec();
    text.extend(many_of(sort, len - text.len()));
    if random.chance(30) {
        damage::bytes(random, &mut text);
    }
    text
}

/// A full table's text, at times with a damaged byte.
fn full(random: &mut Random) -> Vec<u8> {
    let table = tables::longest(random).bytes();
    let mut text = words::spaced(random, &words::of_table(&table));
    if random.chance(50) {
        damage::bytes(random, &mut text);
    }
    text
}
