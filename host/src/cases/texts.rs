//! Texts to read and tables to print, from a seed: good, damaged word by word and byte by byte, with
//! every spacing, and near every limit.

pub mod damage;
pub mod edges;
pub mod faults;
pub mod long;
pub mod walk;
pub mod words;

use super::random::Random;
use super::tables::{self, Style};
use super::{damage as table_damage, Case, Plan};
use crate::format::{LONGEST_TABLE, MAX_TEXT};
use crate::reference::check;
use crate::reference::text::print::text;
use crate::reference::text::read::stands_for;
use words::Words;

/// A case of any sort.
pub fn any_case(seed: u64) -> Case {
    let mut random = Random::new(seed);
    match random.below(200) {
        0 => long::case(&mut random),
        1..=40 => print_case(&mut random),
        _ => read_case(&mut random),
    }
}

/// A text to read that is no long one.
pub fn read_case(random: &mut Random) -> Case {
    match random.below(90) {
        0..=16 => good_case(random),
        17..=37 => damaged_words_case(random),
        38..=57 => damaged_bytes_case(random),
        58..=69 => faulty_case(random),
        _ => walk_case(random),
    }
}

/// A good text to read.
pub fn good_case(random: &mut Random) -> Case {
    let mut words = good_words(random);
    words::respell(random, &mut words);
    case_of(random, &words)
}

/// A text whose words are changed, left out, repeated or cut off.
pub fn damaged_words_case(random: &mut Random) -> Case {
    let mut words = good_words(random);
    for _ in 0..*random.pick(&[1, 1, 1, 1, 2, 3]) {
        damage::words(random, &mut words);
    }
    case_of(random, &words)
}

/// A text whose bytes are changed, left out, repeated or cut off.
pub fn damaged_bytes_case(random: &mut Random) -> Case {
    let words = good_words(random);
    let mut text = words::spaced(random, &words);
    for _ in 0..*random.pick(&[1, 1, 1, 1, 2, 3]) {
        damage::bytes(random, &mut text);
    }
    with_room(random, text)
}

/// A text of the grammar whose table is mostly a bad one.
pub fn faulty_case(random: &mut Random) -> Case {
    let mut words = good_words(random);
    for _ in 0..*random.pick(&[1, 1, 1, 2]) {
        faults::fault(random, &mut words);
    }
    case_of(random, &words)
}

/// Words that the grammar allows, with nothing behind them, or a word that may not come there, or
/// that is no token.
pub fn walk_case(random: &mut Random) -> Case {
    if random.chance(25) {
        let words = walk::whole(random);
        return case_of(random, &words);
    }
    let mut words = walk::beginning(random, 40);
    match random.below(3) {
        0 => {}
        1 => words.push(damage::any_word(random)),
        _ => words.push(damage::no_token(random)),
    }
    case_of(random, &words)
}

/// A table to print: a good one, or a damaged one.
pub fn print_case(random: &mut Random) -> Case {
    let plan = plan(random);
    let table = match random.chance(35) {
        true => table_damage::table(random, &plan),
        false => plan.bytes(),
    };
    let len = check::read(&table).map_or(0, |table| text(&table).len());
    let less = random.between(0, len);
    let more = random.between(1, 300);
    let room = match random.below(20) {
        0..=5 => len,
        6..=8 => len.saturating_sub(1),
        9..=10 => less,
        11 => 0,
        12 => MAX_TEXT,
        _ => len + more,
    };
    Case::print_text(table, room)
}

/// A good table.
fn plan(random: &mut Random) -> Plan {
    match random.below(300) {
        0 => tables::longest(random),
        1..=30 => tables::weighed(random).0,
        31 => many_symbols(random),
        _ => {
            let style = Style::any(random);
            tables::table(random, style)
        }
    }
}

/// A table of more symbols than its rules name.
fn many_symbols(random: &mut Random) -> Plan {
    let mut plan = tables::table(random, Style::Mixed);
    let symbols = random.between(plan.arities.len(), 32);
    plan.arities.resize_with(symbols, || random.up_to(4) as u8);
    plan
}

/// The words of a good table's text.
fn good_words(random: &mut Random) -> Words {
    words::of_table(&plan(random).bytes())
}

/// These words with some spacing, and room for their table, or not.
fn case_of(random: &mut Random, words: &Words) -> Case {
    let text = words::spaced(random, words);
    with_room(random, text)
}

/// A text, with room for its table to the byte, one byte less, none, or more.
fn with_room(random: &mut Random, text: Vec<u8>) -> Case {
    let len = stands_for(&text).map_or(100, |table| table.len());
    let more = random.between(1, 300);
    let room = match random.below(20) {
        0..=6 => len,
        7 | 8 => len - 1,
        9 => 0,
        10 => LONGEST_TABLE,
        _ => len + more,
    };
    Case::read_text(text, room)
}
