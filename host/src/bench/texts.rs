//! Texts to read and tables to print, of the size that tables have and of the greatest.

use super::loads::cycles;
use super::quotients::quotients;
use crate::build::{self, table_a};
use crate::cases::random::Random;
use crate::cases::tables;
use crate::cases::texts::edges::longest_printed;
use crate::cases::texts::long::many_of;
use crate::format::MAX_TEXT;
use crate::reference::check;
use crate::reference::table::Table;
use crate::reference::text::print;
use crate::reference::text::read::stands_for;

/// A text to read, with room for its table to the byte.
pub struct Reading {
    pub name: String,
    pub text: Vec<u8>,
    pub room: usize,
}

/// A table to print, with room for its text to the byte.
pub struct Printing {
    pub name: String,
    pub table: Vec<u8>,
    pub room: usize,
}

/// What is read: rules up to the greatest length of a text, which are more than a table has; heads
/// alone, which have the most tokens for their length and the longest table; and good tables.
pub fn readings() -> Vec<Reading> {
    let mut found = vec![
        reading("rules of the loads, as many as fit", rules()),
        reading("one rule of heads alone", heads()),
    ];
    for (name, table) in good_tables() {
        found.push(reading(name, printed(&table)));
    }
    found
}

/// What is printed: the good tables that are read.
pub fn printings() -> Vec<Printing> {
    let printing = |(name, table): (&str, Vec<u8>)| Printing {
        name: name.to_string(),
        room: printed(&table).len(),
        table,
    };
    good_tables().into_iter().map(printing).collect()
}

fn reading(name: &str, text: Vec<u8>) -> Reading {
    let table = stands_for(&text).expect("a text of the grammar");
    Reading {
        name: name.to_string(),
        room: table.len(),
        text,
    }
}

/// Good tables: the one whose text is longest, a full one with small numbers, and table A.
fn good_tables() -> Vec<(&'static str, Vec<u8>)> {
    vec![
        ("the table with the longest text", longest_printed()),
        ("a full table", tables::longest(&mut Random::new(1)).bytes()),
        ("table A", table_a()),
    ]
}

fn read(table: &[u8]) -> Table {
    check::read(table).expect("a good table")
}

fn printed(table: &[u8]) -> Vec<u8> {
    print::text(&read(table)).into_bytes()
}

/// Symbols of two places, then the rules of the cycles and of the loads that divide in turn, as they
/// are printed, for as long as a text can be; then spaces.
fn rules() -> Vec<u8> {
    let loads = cycles().into_iter().chain(quotients());
    let tables: Vec<Table> = loads.map(|load| read(&load.table)).collect();
    let mut found = printed(&build::table(&[2; 6], &[]));
    for rule in tables.iter().flat_map(|table| &table.rules).cycle() {
        let line = print::rule(rule);
        if found.len() + line.len() > MAX_TEXT {
            break;
        }
        found.extend(line.into_bytes());
    }
    found.resize(MAX_TEXT, b' ');
    found
}

/// `s0, s0, ..` as the heads of one rule.
fn heads() -> Vec<u8> {
    many_of(["s0", ",s0", "<=>true."], MAX_TEXT)
}
