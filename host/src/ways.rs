//! The ways in which a run comes to the places of occurrences, and the edges of counting that it
//! reaches: so it can be seen that cases reach all of them.
//!
//! The proved engine lists no places. It counts through the rule heads when an occurrence is asked
//! for, and keeps a mark on the last place that it found. The second engine lists them all; what it
//! asks for tells where that mark is, and which way counting has to go.

use std::cmp::Ordering;
use std::collections::BTreeSet;

use crate::cases::Case;
use crate::format::{MAX_HEADS, MAX_RULES};
use crate::names::{Occurrence, Symbol};
use crate::reference::occurrences::HeadPlace;
use crate::reference::state::Entry;
use crate::reference::step::Machine;
use crate::reference::table::{Head, Table};
use crate::watched::watch;

/// The occurrence found last, and its place.
#[derive(Clone, Copy, Debug)]
struct Mark {
    symbol: Symbol,
    occurrence: Occurrence,
    place: HeadPlace,
}

/// An occurrence that is asked for, the mark before, and the place, if the symbol has it.
#[derive(Clone, Copy, Debug)]
struct Ask<'a> {
    table: &'a Table,
    mark: Option<Mark>,
    symbol: Symbol,
    occurrence: Occurrence,
    place: Option<HeadPlace>,
}

// Where the mark is. In the first three counting begins at the first rule; on the occurrence itself
// nothing is counted; otherwise counting goes on behind the mark.
const NO_MARK: &str = "no mark";
const OTHER: &str = "mark on another symbol";
const LATER: &str = "mark on a later occurrence";
const ITSELF: &str = "mark on the occurrence itself";
const ONE_BEFORE: &str = "mark on the occurrence before";
const FURTHER_BEFORE: &str = "mark further before";

// Which occurrence is asked for.
const FIRST: &str = "the first";
const NOT_FIRST: &str = "not the first";

// Where it is found, against the mark's rule; against the first rule where there is no mark.
const RULE_BEFORE: &str = "in a rule before";
const SAME_RULE: &str = "in the same rule";
const NEXT_RULE: &str = "in the next rule";
const FURTHER_RULE: &str = "in a rule further behind";
const NOWHERE: &str = "nowhere";

/// Every way there is: where the mark is, which occurrence is asked for, where it is found.
///
/// A fact that becomes active asks for occurrence 1. After Default it asks for the next one, and the
/// mark is on the one before. After Propagate it asks for the same one again, once the body's facts
/// are through; they may have moved the mark. So there are no others:
///
/// - An occurrence is missing only where it is the first, of a symbol without heads, which no mark
///   is on; or after Default. One that is asked for again was found before.
/// - Without a mark nothing was found, so that nothing but first occurrences was asked for.
/// - An occurrence behind the mark's is in no rule before, and one before it in no rule behind.
/// - From a mark further before none is found in the same rule. The fact propagated there, with a
///   body that moves the mark. The mark was left on a head further up by a fact that fired there and
///   went, for one that stays goes on to the head below. So the same body came behind it, and has
///   moved the mark again.
#[rustfmt::skip]
const WAYS: [(&str, &str, &[&str]); 9] = [
    (NO_MARK, FIRST, &[SAME_RULE, NEXT_RULE, FURTHER_RULE, NOWHERE]),
    (OTHER, FIRST, &[RULE_BEFORE, SAME_RULE, NEXT_RULE, FURTHER_RULE, NOWHERE]),
    (OTHER, NOT_FIRST, &[RULE_BEFORE, SAME_RULE, NEXT_RULE, FURTHER_RULE]),
    (LATER, FIRST, &[RULE_BEFORE, SAME_RULE]),
    (LATER, NOT_FIRST, &[RULE_BEFORE, SAME_RULE]),
    (ITSELF, FIRST, &[SAME_RULE]),
    (ITSELF, NOT_FIRST, &[SAME_RULE]),
    (ONE_BEFORE, NOT_FIRST, &[SAME_RULE, NEXT_RULE, FURTHER_RULE, NOWHERE]),
    (FURTHER_BEFORE, NOT_FIRST, &[NEXT_RULE, FURTHER_RULE]),
];

/// An edge of counting in words, and whether an occurrence that is asked for is there.
type Edge = (&'static str, fn(&Ask) -> bool);

/// The most occurrences that a symbol can have. No other symbol has heads then. So occurrence 256 is
/// counted behind a mark, at the most from the first one on, and never from the first rule on: there
/// 255 is the most, with the mark on 256.
const MOST: u32 = (MAX_RULES * MAX_HEADS) as u32;

const EDGES: [Edge; 10] = [
    ("no rules", |ask| ask.table.rules.is_empty()),
    ("a symbol without heads among 64 rules", |ask| {
        ask.rules_are(MAX_RULES) && ask.is_first() && ask.place.is_none()
    }),
    ("the first occurrence, in the last of 64 rules", |ask| {
        ask.is_first() && ask.is_in_rule(MAX_RULES)
    }),
    ("a later occurrence, in the last of 64 rules", |ask| {
        !ask.is_first() && ask.is_in_rule(MAX_RULES)
    }),
    ("none behind a mark in the last of 64 rules", |ask| {
        ask.place.is_none() && ask.mark_is_in_rule(MAX_RULES)
    }),
    ("the first of four heads of one symbol", |ask| {
        ask.place.map_or(false, |place| place.head == 0) && ask.heads_in_rule() == MAX_HEADS
    }),
    ("occurrence 255, from the first rule on", |ask| {
        ask.occurrence.0 == MOST - 1 && ask.mark_is_on(MOST)
    }),
    ("occurrence 256, from the one before on", |ask| {
        ask.occurrence.0 == MOST && ask.mark_is_on(MOST - 1)
    }),
    ("occurrence 256, from the first one on", |ask| {
        ask.occurrence.0 == MOST && ask.mark_is_on(1)
    }),
    ("occurrence 257, which is none", |ask| {
        ask.occurrence.0 == MOST + 1
    }),
];

/// All ways, in words.
pub fn ways() -> BTreeSet<String> {
    let mut words = BTreeSet::new();
    for (from, which, found) in WAYS {
        words.extend(found.iter().map(|found| way(from, which, found)));
    }
    words
}

/// All edges, in words.
pub fn edges() -> BTreeSet<String> {
    EDGES.iter().map(|(words, _)| words.to_string()).collect()
}

/// All ways and all edges.
pub fn all() -> BTreeSet<String> {
    &ways() | &edges()
}

fn way(from: &str, which: &str, found: &str) -> String {
    format!("{}, {}: {}", from, which, found)
}

/// The ways that a case takes, and the edges that it reaches; none where nothing is run.
pub fn reached(case: &Case) -> BTreeSet<String> {
    let mut mark = None;
    let mut found = BTreeSet::new();
    watch(case, |machine, _, top| {
        if let Some(ask) = Ask::by(machine, mark, top) {
            found.extend(ask.words());
            mark = ask.mark_behind();
        }
    });
    found
}

impl<'a> Ask<'a> {
    /// What an entry on top asks for, if it is active.
    fn by(machine: &Machine<'a>, mark: Option<Mark>, top: Entry) -> Option<Ask<'a>> {
        match top {
            Entry::Active(_, symbol, occurrence) => Some(Ask {
                table: machine.table,
                mark,
                symbol,
                occurrence,
                place: machine.occurrences.get(symbol, occurrence),
            }),
            _ => None,
        }
    }

    /// The mark behind it: on its place, or where it was if there is none.
    fn mark_behind(&self) -> Option<Mark> {
        let moved = self.place.map(|place| Mark {
            symbol: self.symbol,
            occurrence: self.occurrence,
            place,
        });
        moved.or(self.mark)
    }

    /// Its way, and the edges where it is.
    fn words(&self) -> Vec<String> {
        let which = if self.is_first() { FIRST } else { NOT_FIRST };
        let edges = EDGES.iter().filter(|(_, is_there)| is_there(self));
        let mut words: Vec<String> = edges.map(|(words, _)| words.to_string()).collect();
        words.push(way(self.from(), which, self.found()));
        words
    }

    fn from(&self) -> &'static str {
        let mark = match self.mark {
            Some(mark) => mark,
            None => return NO_MARK,
        };
        match self.occurrence.cmp(&mark.occurrence) {
            _ if mark.symbol != self.symbol => OTHER,
            Ordering::Less => LATER,
            Ordering::Equal => ITSELF,
            Ordering::Greater if self.occurrence == mark.occurrence.next() => ONE_BEFORE,
            Ordering::Greater => FURTHER_BEFORE,
        }
    }

    fn found(&self) -> &'static str {
        let marked = self.mark.map_or(0, |mark| mark.place.rule.index());
        let rule = match self.place {
            Some(place) => place.rule.index(),
            None => return NOWHERE,
        };
        match rule.cmp(&marked) {
            Ordering::Less => RULE_BEFORE,
            Ordering::Equal => SAME_RULE,
            Ordering::Greater if rule == marked + 1 => NEXT_RULE,
            Ordering::Greater => FURTHER_RULE,
        }
    }

    fn is_first(&self) -> bool {
        self.occurrence == Occurrence::FIRST
    }

    /// Whether the table has so many rules.
    fn rules_are(&self, count: usize) -> bool {
        self.table.rules.len() == count
    }

    /// Whether the place is in the rule of a number that counts from 1.
    fn is_in_rule(&self, number: usize) -> bool {
        let place = self.place;
        place.map_or(false, |place| place.rule.index() + 1 == number)
    }

    /// Whether the mark is on the symbol, in the rule of a number that counts from 1.
    fn mark_is_in_rule(&self, number: usize) -> bool {
        let mark = self.mark.filter(|mark| mark.symbol == self.symbol);
        mark.map_or(false, |mark| mark.place.rule.index() + 1 == number)
    }

    /// Whether the mark is on this occurrence of the symbol.
    fn mark_is_on(&self, occurrence: u32) -> bool {
        let mark = self.mark.filter(|mark| mark.symbol == self.symbol);
        mark.map_or(false, |mark| mark.occurrence == Occurrence(occurrence))
    }

    /// How many heads of the symbol the rule of the place has.
    fn heads_in_rule(&self) -> usize {
        let heads = self.place.map(|place| &self.table.rule(place.rule).heads);
        let of_symbol = |head: &&Head| head.symbol == self.symbol;
        heads.map_or(0, |heads| heads.iter().filter(of_symbol).count())
    }
}
