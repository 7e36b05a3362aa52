//! Numbers and places in words. The C header says what each is, so the words are taken from there.

use crate::format::{
    GUARD, KEPT, MAX_GUARDS, MAX_HEADS, MAX_ITEMS, MAX_RULES, MAX_SYMBOLS, REMOVED, RULE, SYMBOL,
};
use crate::header::{definitions, Definition};
use crate::outcome::{Outcome, Refusal};

/// What a number means, in the header's words; nothing for a number that it does not name.
pub fn meaning(number: u32) -> Option<&'static str> {
    Some(named(number)?.ending()?.0)
}

/// What the place of a number is; nothing where it is always 0, and for a number without a name.
pub fn place(number: u32) -> Option<&'static str> {
    let said = named(number)?.ending()?.1;
    let sorts = [
        ("rule", "rule"),
        ("offset", "byte"),
        ("fact", "goal fact"),
        ("symbol", "symbol"),
    ];
    let sort = sorts.iter().find(|(word, _)| said.contains(word));
    sort.map(|(_, sort)| *sort)
}

/// Why a table, or a goal of it, is refused.
pub fn refused(table: &[u8], refusal: Refusal) -> String {
    let name = named(refusal.number).map(|definition| definition.name);
    match (name, table.get(refusal.place as usize)) {
        (Some("ONE_TOO_MANY"), Some(kind)) => one_too_many(*kind),
        _ => told(refusal.number),
    }
}

/// How a run of this table ended or why it was refused, with the rule, byte or fact at its place.
pub fn ended(table: &[u8], outcome: &Outcome) -> String {
    let refusal = Refusal {
        number: outcome.number,
        place: outcome.place,
    };
    let why = refused(table, refusal);
    match place(outcome.number) {
        Some(sort) => format!("{}: {} {}", why, sort, outcome.place),
        None => why,
    }
}

/// The header's line for the number of an ending or a refusal.
fn named(number: u32) -> Option<Definition> {
    let mut numbers = definitions().filter(|definition| definition.ending().is_some());
    numbers.find(|definition| definition.value == number as usize)
}

/// What a number means, or the number itself.
fn told(number: u32) -> String {
    meaning(number).map_or_else(|| format!("number {}", number), str::to_string)
}

/// What there is one too many of, by the kind of the record that is refused.
fn one_too_many(kind: u8) -> String {
    let (sort, whole, most) = match kind {
        SYMBOL => ("symbol", "table", MAX_SYMBOLS),
        RULE => ("rule", "table", MAX_RULES),
        KEPT | REMOVED => ("head", "rule", MAX_HEADS),
        GUARD => ("guard", "rule", MAX_GUARDS),
        _ => ("body item", "rule", MAX_ITEMS),
    };
    format!("one {} too many, a {} has at most {}", sort, whole, most)
}
