//! The instances of an occurrence: every way to give each head a different stored fact, the
//! active fact at its place, in the order of the partners' identifiers.

use super::state::{Fact, Stored};
use super::table::{Expression, Guard, Head, Item, Rule, Slot, Variable};
use crate::format::{PLACES, VARIABLES};
use crate::names::FactId;

/// An instance, or the beginning of one: the facts of the first heads, and what they bind.
#[derive(Clone, Debug)]
pub struct Instance {
    /// In head order.
    pub identifiers: Vec<FactId>,
    pub binding: Binding,
}

/// The values of a rule's variables.
#[derive(Clone, Debug, Default)]
pub struct Binding {
    values: [Option<i32>; VARIABLES],
}

/// What a guard list comes to.
#[derive(Clone, Copy, Debug, PartialEq, Eq)]
pub enum Truth {
    True,
    False,
    Undefined,
}

/// All instances of a rule with the active fact at head `place`, in the order in which they
/// are tried: by their partners' identifiers in written head order, compared as lists.
pub fn instances(rule: &Rule, place: usize, active: FactId, store: &[Stored]) -> Vec<Instance> {
    let mut found = vec![Instance::empty()];
    for (at, head) in rule.heads.iter().enumerate() {
        let may_stand = |stored: &&Stored| (stored.id == active) == (at == place);
        let candidates: Vec<&Stored> = store.iter().filter(may_stand).collect();
        let longer = |start: &Instance| start.all_with(head, &candidates);
        found = found.iter().flat_map(longer).collect();
    }
    found.sort_by_key(|instance| instance.partners(active));
    found
}

impl Instance {
    fn empty() -> Instance {
        Instance {
            identifiers: Vec::new(),
            binding: Binding::default(),
        }
    }

    /// This beginning with each candidate that can stand at the next head.
    fn all_with(&self, head: &Head, candidates: &[&Stored]) -> Vec<Instance> {
        let unused = candidates
            .iter()
            .filter(|stored| !self.identifiers.contains(&stored.id));
        unused
            .filter_map(|stored| self.with(head, stored))
            .collect()
    }

    /// This beginning with one more fact, if the fact matches the next head.
    fn with(&self, head: &Head, stored: &Stored) -> Option<Instance> {
        let binding = self.binding.with(head, &stored.fact)?;
        let mut identifiers = self.identifiers.clone();
        identifiers.push(stored.id);
        Some(Instance {
            identifiers,
            binding,
        })
    }

    /// The partners' identifiers in written head order.
    fn partners(&self, active: FactId) -> Vec<FactId> {
        let partners = self.identifiers.iter().filter(|id| **id != active);
        partners.copied().collect()
    }
}

impl Binding {
    /// The binding after a head is matched with a fact: equal symbol, constants and repeated
    /// variables, or nothing.
    pub fn with(&self, head: &Head, fact: &Fact) -> Option<Binding> {
        if head.symbol != fact.symbol {
            return None;
        }
        let mut binding = self.clone();
        for (slot, argument) in head.slots.iter().zip(fact.arguments) {
            let expected = match *slot {
                Slot::Constant(constant) => constant,
                Slot::Variable(Variable(v)) => {
                    *binding.values[usize::from(v)].get_or_insert(argument)
                }
            };
            if expected != argument {
                return None;
            }
        }
        Some(binding)
    }

    /// A slot's value. A good table has no unbound variable.
    fn slot(&self, slot: Slot) -> i32 {
        match slot {
            Slot::Constant(constant) => constant,
            Slot::Variable(Variable(v)) => {
                self.values[usize::from(v)].expect("the variable stands in a head")
            }
        }
    }

    /// An expression's value, or nothing if it is undefined.
    pub fn value(&self, expression: &Expression) -> Option<i32> {
        match *expression {
            Expression::Alone(slot) => Some(self.slot(slot)),
            Expression::Of(operation, a, b) => operation.apply(self.slot(a), self.slot(b)),
        }
    }

    /// One comparison; an undefined side makes it undefined.
    fn compare(&self, guard: &Guard) -> Truth {
        match (self.value(&guard.left), self.value(&guard.right)) {
            (Some(a), Some(b)) if guard.comparator.holds(a, b) => Truth::True,
            (Some(_), Some(_)) => Truth::False,
            _ => Truth::Undefined,
        }
    }

    /// A guard list, read left to right up to the first comparison that is not true.
    pub fn truth(&self, guards: &[Guard]) -> Truth {
        let each = guards.iter().map(|guard| self.compare(guard));
        let mut not_true = each.filter(|truth| *truth != Truth::True);
        not_true.next().unwrap_or(Truth::True)
    }

    /// The whole body worked out, a fail as nothing; or nothing if an argument is undefined.
    pub fn body(&self, items: &[Item]) -> Option<Vec<Option<Fact>>> {
        items.iter().map(|item| self.item(item)).collect()
    }

    fn item(&self, item: &Item) -> Option<Option<Fact>> {
        let (symbol, expressions) = match item {
            Item::Fail => return Some(None),
            Item::Fact { symbol, arguments } => (*symbol, arguments),
        };
        let mut arguments = [0; PLACES];
        for (argument, expression) in arguments.iter_mut().zip(expressions) {
            *argument = self.value(expression)?;
        }
        Some(Some(Fact { symbol, arguments }))
    }
}
