//! The run's loop over a state in fixed room.

use super::expression::Values;
use super::occurrences::{HeadPlace, Occurrences};
use super::rules::{Item, Table};
use super::search::{Found, Search};
use super::store::{Chosen, Fact, History, Store};
use crate::format::{HISTORY, MAX_ITEMS, PLACES, STACK, STORE};
use crate::names::{FactId, Occurrence, RuleNumber};
use crate::outcome::Outcome;

/// A stack entry.
#[derive(Clone, Copy)]
enum Entry {
    Waiting(Fact),
    Active(FactId, u8, Occurrence),
    Fail,
}

/// An ending before a step: its number and place.
type Ending = (u32, u32);

/// A table and the state of a run over it.
pub struct Machine<'a> {
    table: &'a Table,
    occurrences: Occurrences,
    stack: [Entry; STACK],
    height: usize,
    store: Store,
    history: History,
    next: FactId,
    firings: u32,
}

impl<'a> Machine<'a> {
    /// An empty state.
    pub fn new(table: &'a Table) -> Machine<'a> {
        Machine {
            table,
            occurrences: Occurrences::of(table),
            stack: [Entry::Fail; STACK],
            height: 0,
            store: Store::new(),
            history: History::new(),
            next: FactId::FIRST,
            firings: 0,
        }
    }

    /// Puts a waiting fact on the stack.
    pub fn wait(&mut self, fact: Fact) {
        self.push(Entry::Waiting(fact));
    }

    /// Writes the answer of a done run.
    pub fn write_answer(&self, answer: &mut [u8]) {
        self.store.write(answer);
    }

    /// Steps up to an ending.
    pub fn run(&mut self, limit: u32) -> Outcome {
        let mut steps = 0;
        while self.height > 0 {
            if steps == limit {
                return self.outcome((2, 0), steps);
            }
            let ended = match self.stack[self.height - 1] {
                Entry::Waiting(fact) => self.activate(fact),
                Entry::Fail => return self.outcome((1, 0), steps + 1),
                Entry::Active(id, symbol, occurrence) => self.active(id, symbol, occurrence),
            };
            if let Err(ending) = ended {
                return self.outcome(ending, steps);
            }
            steps += 1;
        }
        self.outcome((0, 0), steps)
    }

    fn outcome(&self, (number, place): Ending, steps: u32) -> Outcome {
        Outcome {
            number,
            place,
            steps,
            firings: self.firings,
            identifiers: self.next.0 - 1,
            stored: self.store.len as u32,
        }
    }

    fn push(&mut self, entry: Entry) {
        self.stack[self.height] = entry;
        self.height += 1;
    }

    fn activate(&mut self, fact: Fact) -> Result<(), Ending> {
        if self.store.len == STORE {
            return Err((5, 0));
        }
        self.store.put(self.next, fact);
        self.stack[self.height - 1] = Entry::Active(self.next, fact.symbol, Occurrence::FIRST);
        self.next = self.next.next();
        Ok(())
    }

    /// The step of an active fact: a firing, Default or Drop.
    fn active(&mut self, id: FactId, symbol: u8, occurrence: Occurrence) -> Result<(), Ending> {
        let place = match self.occurrences.get(symbol, occurrence) {
            Some(place) => place,
            None => {
                self.height -= 1;
                return Ok(());
            }
        };
        let table: &'a Table = self.table;
        let number = RuleNumber(place.rule);
        let rule = &table.rules[number.index()];
        let head = usize::from(place.head);
        let mut search = Search::new(rule, number, head, &self.store, &self.history);
        let row = self.store.row(id);
        match row.map_or(Found::Nothing, |row| search.start(row)) {
            Found::Nothing => {
                self.stack[self.height - 1] = Entry::Active(id, symbol, occurrence.next());
                Ok(())
            }
            Found::Undefined => Err((3, u32::from(place.rule))),
            Found::Applies => {
                let (chosen, values) = (search.chosen, search.values);
                self.fire(place, chosen, &values)
            }
        }
    }

    /// A firing, unless 4, 6 or 7 stops it before anything changes.
    fn fire(&mut self, place: HeadPlace, chosen: Chosen, values: &Values) -> Result<(), Ending> {
        let number = RuleNumber(place.rule);
        let rule = &self.table.rules[number.index()];
        let items = &rule.items[..rule.item_count];
        let body = body(items, values).ok_or((4, u32::from(place.rule)))?;
        let simplify = usize::from(place.head) >= rule.kept_count;
        let base = self.height - usize::from(simplify);
        if base + items.len() > STACK {
            return Err((6, u32::from(place.rule)));
        }
        if rule.kept_count < rule.head_count {
            let removed = &chosen[rule.kept_count..rule.head_count];
            self.store.remove(removed);
            self.history.prune(removed);
        } else if self.history.len == HISTORY {
            return Err((7, u32::from(place.rule)));
        } else {
            self.history.put(number, chosen);
        }
        self.height = base;
        for entry in body[..items.len()].iter().rev() {
            self.push(*entry);
        }
        self.firings += 1;
        Ok(())
    }
}

/// The whole body worked out, or nothing if an argument is undefined.
fn body(items: &[Item], values: &Values) -> Option<[Entry; MAX_ITEMS]> {
    let mut entries = [Entry::Fail; MAX_ITEMS];
    for (entry, item) in entries.iter_mut().zip(items) {
        if item.is_fail {
            continue;
        }
        let mut arguments = [0; PLACES];
        let used = &item.arguments[..usize::from(item.arity)];
        for (argument, expression) in arguments.iter_mut().zip(used) {
            *argument = expression.value(values)?;
        }
        *entry = Entry::Waiting(Fact {
            symbol: item.symbol,
            arguments,
        });
    }
    Some(entries)
}
