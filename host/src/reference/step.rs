//! What the top entry decides: a step, or an ending before it.

use super::instances::{instances, Instance, Truth};
use super::occurrences::{HeadPlace, Occurrences};
use super::state::{Entry, Fact, Fired, State, Stored};
use super::table::{Rule, Table};
use crate::format::{HISTORY, STACK, STORE};
use crate::names::{FactId, Occurrence, RuleNumber, Symbol};

/// A step.
#[derive(Clone, Debug, PartialEq, Eq)]
pub enum Step {
    Activate(Fact),
    Fail,
    Simplify(Firing),
    Propagate(Firing),
    Default(FactId, Occurrence),
    Drop(FactId),
}

/// An instance that applies, with its body worked out.
#[derive(Clone, Debug, PartialEq, Eq)]
pub struct Firing {
    pub rule: RuleNumber,
    /// In head order.
    pub identifiers: Vec<FactId>,
    pub body: Vec<Entry>,
}

/// An ending that stops a run before a step: 3 to 7, and its place.
#[derive(Clone, Copy, Debug, PartialEq, Eq)]
pub struct Ending {
    pub number: u32,
    pub place: u32,
}

/// Whether a firing drops the history entries that name a removed fact. Keeping all of them
/// changes no step; it is there to be compared with.
#[derive(Clone, Copy, Debug, PartialEq, Eq)]
pub enum Pruning {
    Prune,
    /// Keeps every entry, and the history has no limit.
    KeepAll,
}

/// A good table with its occurrences listed, ready to step.
pub struct Machine<'a> {
    pub table: &'a Table,
    pub occurrences: Occurrences,
    pub pruning: Pruning,
}

impl<'a> Machine<'a> {
    /// Lists each symbol's head places.
    pub fn new(table: &'a Table, pruning: Pruning) -> Machine<'a> {
        Machine {
            table,
            occurrences: Occurrences::of(table),
            pruning,
        }
    }

    /// What a top entry decides in a state.
    pub fn decide(&self, state: &State, top: Entry) -> Result<Step, Ending> {
        match top {
            Entry::Fail => Ok(Step::Fail),
            Entry::Waiting(_) if state.store.len() >= STORE => Err(ending(5)),
            Entry::Waiting(fact) => Ok(Step::Activate(fact)),
            Entry::Active(id, symbol, occurrence) => {
                match self.occurrences.get(symbol, occurrence) {
                    None => Ok(Step::Drop(id)),
                    Some(place) => self.try_occurrence(state, id, occurrence, place),
                }
            }
        }
    }

    /// An active fact at an occurrence that exists: a firing, or Default.
    fn try_occurrence(
        &self,
        state: &State,
        active: FactId,
        occurrence: Occurrence,
        place: HeadPlace,
    ) -> Result<Step, Ending> {
        match self.applicable(state, active, place)? {
            None => Ok(Step::Default(active, occurrence)),
            Some(instance) => self.fire(state, instance, place),
        }
    }

    /// The first instance, not in the history, whose guard is true; an undefined guard met
    /// before it stops the run.
    fn applicable(
        &self,
        state: &State,
        active: FactId,
        place: HeadPlace,
    ) -> Result<Option<Instance>, Ending> {
        let rule = self.table.rule(place.rule);
        for instance in instances(rule, place.head, active, &state.store) {
            if rule.is_recorded() && state.has_fired(place.rule, &instance.identifiers) {
                continue;
            }
            match instance.binding.truth(&rule.guards) {
                Truth::True => return Ok(Some(instance)),
                Truth::False => {}
                Truth::Undefined => return Err(ending_in(3, place.rule)),
            }
        }
        Ok(None)
    }

    /// An applicable instance fires, unless 4, 6 or 7 stops it.
    fn fire(&self, state: &State, instance: Instance, place: HeadPlace) -> Result<Step, Ending> {
        let rule = self.table.rule(place.rule);
        let body = instance.binding.body(&rule.body);
        let body = body.ok_or_else(|| ending_in(4, place.rule))?;
        let firing = Firing {
            rule: place.rule,
            identifiers: instance.identifiers,
            body: body.into_iter().map(entry).collect(),
        };
        let simplifies = rule.removes(place.head);
        let stack = state.stack.len() - usize::from(simplifies) + firing.body.len();
        if stack > STACK {
            return Err(ending_in(6, place.rule));
        }
        if self.pruning == Pruning::Prune && history_after(state, rule, &firing) > HISTORY {
            return Err(ending_in(7, place.rule));
        }
        Ok(if simplifies {
            Step::Simplify(firing)
        } else {
            Step::Propagate(firing)
        })
    }

    /// Takes a step that [`Machine::decide`] gave for this state.
    pub fn apply(&self, state: &mut State, step: &Step) {
        match step {
            Step::Activate(fact) => activate(state, *fact),
            Step::Fail => {
                state.stack.pop();
            }
            Step::Simplify(firing) => {
                state.stack.pop();
                self.change(state, firing);
            }
            Step::Propagate(firing) => self.change(state, firing),
            Step::Default(..) => {
                if let Some(Entry::Active(_, _, occurrence)) = state.stack.last_mut() {
                    *occurrence = occurrence.next();
                }
            }
            Step::Drop(_) => {
                state.stack.pop();
            }
        }
    }

    /// What a firing does to store, history and stack: removed heads leave, the instance of a
    /// rule with none is recorded, the body is pushed.
    fn change(&self, state: &mut State, firing: &Firing) {
        let rule = self.table.rule(firing.rule);
        for id in removed(rule, &firing.identifiers) {
            state.remove(id);
            if self.pruning == Pruning::Prune {
                state.forget(id);
            }
        }
        if rule.is_recorded() {
            state.history.push(Fired {
                rule: firing.rule,
                identifiers: firing.identifiers.clone(),
            });
        }
        state.push_all(&firing.body);
    }
}

/// A waiting fact on top gets the next identifier, enters the store and becomes active.
fn activate(state: &mut State, fact: Fact) {
    let id = state.next;
    let symbol: Symbol = fact.symbol;
    state.stack.pop();
    state
        .stack
        .push(Entry::Active(id, symbol, Occurrence::FIRST));
    state.store.push(Stored { id, fact });
    state.next = id.next();
}

/// The length of the history after a firing: entries that name a removed fact are dropped, and
/// the instance of a rule without removed heads is added.
fn history_after(state: &State, rule: &Rule, firing: &Firing) -> usize {
    let gone = removed(rule, &firing.identifiers);
    let stays = |fired: &&Fired| !fired.identifiers.iter().any(|id| gone.contains(id));
    state.history.iter().filter(stays).count() + usize::from(rule.is_recorded())
}

/// The identifiers at the removed heads.
fn removed(rule: &Rule, identifiers: &[FactId]) -> Vec<FactId> {
    identifiers[rule.kept..].to_vec()
}

/// A body item as a stack entry; a fail was worked out as nothing.
fn entry(item: Option<Fact>) -> Entry {
    item.map_or(Entry::Fail, Entry::Waiting)
}

/// An ending with place 0.
fn ending(number: u32) -> Ending {
    Ending { number, place: 0 }
}

/// An ending with a rule as its place.
fn ending_in(number: u32, rule: RuleNumber) -> Ending {
    Ending {
        number,
        place: u32::from(rule.0),
    }
}
