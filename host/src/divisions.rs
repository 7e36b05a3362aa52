//! The divisions that a run works out, and the edges of the rules of quotient and remainder that
//! they reach: so it can be seen that cases reach all of them.
//!
//! A division counts only where a mistake can be seen: in a guard that comes out otherwise with
//! another number, in the body of a run whose answer is written, and where it has no value.

use std::collections::BTreeSet;
use std::slice;

use crate::cases::Case;
use crate::reference::instances::{instances, Binding, Truth};
use crate::reference::numbers::Operation;
use crate::reference::state::{Entry, State};
use crate::reference::step::Machine;
use crate::reference::table::{Expression, Guard, Item, Rule, Slot};
use crate::watched::watch;

/// Where an expression stands.
#[derive(Clone, Copy, Debug, PartialEq, Eq)]
pub enum Part {
    Guard,
    Body,
}

/// A quotient or a remainder that is worked out.
#[derive(Clone, Copy, Debug, PartialEq, Eq)]
pub struct Division {
    pub part: Part,
    pub operation: Operation,
    pub dividend: i32,
    pub divisor: i32,
}

/// A dividend and a divisor for each sort of division: every sign, each end of the range, with and
/// without something left; the lowest number by -1; and by 0.
#[rustfmt::skip]
pub const PAIRS: [(i32, i32); 31] = [
    (7, 2), (8, 2), (-7, 2), (-8, 2), (7, -2), (8, -2), (-7, -2), (-8, -2),
    (0, 5), (0, -5), (0, LOWEST), (0, HIGHEST),
    (LOWEST, 3), (LOWEST, 1), (LOWEST, -3), (LOWEST, -2), (LOWEST, -1),
    (HIGHEST, 2), (HIGHEST, 1), (HIGHEST, -2), (HIGHEST, -1),
    (LOWEST, LOWEST), (LOWEST, HIGHEST), (HIGHEST, LOWEST), (HIGHEST, HIGHEST),
    (1, LOWEST), (-1, LOWEST), (1, HIGHEST), (-1, HIGHEST), (-HIGHEST, HIGHEST),
    (-3, 0),
];

const LOWEST: i32 = i32::MIN;
const HIGHEST: i32 = i32::MAX;

/// What a division gives by a number other than 0, cut toward zero and by the next lower quotient.
/// One of the two is right, and the other what an engine may take for it.
pub fn candidates(operation: Operation, a: i32, b: i32) -> [i32; 2] {
    let (cut, left) = (a.wrapping_div(b), a.wrapping_rem(b));
    match operation {
        Operation::Quotient => [cut, cut.wrapping_sub(1)],
        _ => [left, left.wrapping_add(b)],
    }
}

/// All edges: each sort of division, as quotient and as remainder, in a guard and in a body.
pub fn edges() -> BTreeSet<String> {
    let mut found = BTreeSet::new();
    for part in [Part::Guard, Part::Body] {
        for operation in [Operation::Quotient, Operation::Remainder] {
            let division = |(dividend, divisor)| Division {
                part,
                operation,
                dividend,
                divisor,
            };
            found.extend(PAIRS.map(division).iter().map(Division::edge));
        }
    }
    found
}

impl Division {
    /// The edge that it reaches, in words.
    pub fn edge(&self) -> String {
        let sort = match (self.dividend, self.divisor) {
            (_, 0) => "by 0".to_string(),
            (LOWEST, -1) => "the lowest by -1".to_string(),
            (a, b) => format!("{} by {}, {} left", side(a), side(b), left(a, b)),
        };
        format!("{:?} in a {:?}: {}", self.operation, self.part, sort)
    }

    /// The value, or nothing if it is undefined.
    fn value(&self) -> Option<i32> {
        self.operation.apply(self.dividend, self.divisor)
    }

    /// A number that an engine may take for the value.
    fn mistaken(&self) -> Option<i32> {
        let right = self.value();
        let candidates = match self.divisor {
            0 => [0; 2],
            divisor => candidates(self.operation, self.dividend, divisor),
        };
        candidates.into_iter().find(|one| Some(*one) != right)
    }
}

/// On which side of 0 a number lies, or at which end of the range.
fn side(number: i32) -> &'static str {
    match number {
        LOWEST => "the lowest",
        HIGHEST => "the highest",
        0 => "0",
        _ if number < 0 => "below 0",
        _ => "above 0",
    }
}

fn left(a: i32, b: i32) -> &'static str {
    match a % b {
        0 => "nothing",
        _ => "something",
    }
}

/// The edges that a case reaches.
pub fn reached(case: &Case) -> BTreeSet<String> {
    divisions(case).iter().map(Division::edge).collect()
}

/// The divisions of a run, those that count; none where nothing is run.
fn divisions(case: &Case) -> Vec<Division> {
    let mut found = Vec::new();
    let answered = watch(case, |machine, state, top| {
        found.extend(tried(machine, state, top));
    });
    let counts = |one: &Division| answered || one.part == Part::Guard || one.value().is_none();
    found.into_iter().filter(counts).collect()
}

/// The divisions of the instances that a step tries, up to one whose guard is not false.
fn tried(machine: &Machine, state: &State, top: Entry) -> Vec<Division> {
    let (active, place) = match top {
        Entry::Active(id, symbol, occurrence) => (id, machine.occurrences.get(symbol, occurrence)),
        _ => return Vec::new(),
    };
    let place = match place {
        Some(place) if divides(machine.table.rule(place.rule)) => place,
        _ => return Vec::new(),
    };
    let rule = machine.table.rule(place.rule);
    let mut found = Vec::new();
    for instance in instances(rule, place.head, active, &state.store) {
        if rule.is_recorded() && state.has_fired(place.rule, &instance.identifiers) {
            continue;
        }
        found.extend(worked_out(rule, &instance.binding));
        if instance.binding.truth(&rule.guards) != Truth::False {
            break;
        }
    }
    found
}

/// The divisions of guards up to the first that is not true, and of the body where all are true.
fn worked_out(rule: &Rule, binding: &Binding) -> Vec<Division> {
    let mut found = Vec::new();
    for guard in &rule.guards {
        found.extend(deciding(guard, binding));
        if binding.truth(slice::from_ref(guard)) != Truth::True {
            return found;
        }
    }
    let arguments = rule.body.iter().flat_map(arguments);
    found.extend(arguments.filter_map(|argument| division(Part::Body, argument, binding)));
    found
}

/// The divisions of a comparison that comes out otherwise with a number mistaken for theirs.
fn deciding(guard: &Guard, binding: &Binding) -> Vec<Division> {
    let holds = |left: Option<i32>, right: Option<i32>| {
        let both = left.zip(right);
        both.map(|(left, right)| guard.comparator.holds(left, right))
    };
    let [left, right] = [&guard.left, &guard.right].map(|side| binding.value(side));
    let on_the_left = division(Part::Guard, &guard.left, binding)
        .filter(|one| holds(one.mistaken(), right) != holds(left, right));
    let on_the_right = division(Part::Guard, &guard.right, binding)
        .filter(|one| holds(left, one.mistaken()) != holds(left, right));
    on_the_left.into_iter().chain(on_the_right).collect()
}

fn arguments(item: &Item) -> &[Expression] {
    match item {
        Item::Fact { arguments, .. } => arguments,
        Item::Fail => &[],
    }
}

fn division(part: Part, expression: &Expression, binding: &Binding) -> Option<Division> {
    let (operation, [first, second]) = divided(expression)?;
    let value = |slot: Slot| binding.value(&Expression::Alone(slot));
    Some(Division {
        part,
        operation,
        dividend: value(first)?,
        divisor: value(second)?,
    })
}

/// What a quotient or a remainder divides, by what.
fn divided(expression: &Expression) -> Option<(Operation, [Slot; 2])> {
    match *expression {
        Expression::Of(operation, first, second) => {
            let divides = matches!(operation, Operation::Quotient | Operation::Remainder);
            divides.then_some((operation, [first, second]))
        }
        Expression::Alone(_) => None,
    }
}

/// Whether a rule has a quotient or a remainder.
pub fn divides(rule: &Rule) -> bool {
    let sides = rule
        .guards
        .iter()
        .flat_map(|guard| [&guard.left, &guard.right]);
    let arguments = rule.body.iter().flat_map(arguments);
    sides
        .chain(arguments)
        .any(|expression| divided(expression).is_some())
}

#[cfg(test)]
mod tests {
    use super::{edges, PAIRS};

    #[test]
    fn each_pair_is_of_a_sort_of_its_own() {
        assert_eq!(edges().len(), 4 * PAIRS.len());
    }
}
