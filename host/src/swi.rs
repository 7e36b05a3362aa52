//! A table and goals as a program for SWI-Prolog's CHR library, and what that program prints.
//!
//! Symbols are called s0, s1, .., variables V0, V1, .. and values that are worked out T0, T1, ..

pub mod tables;

use crate::ending::Ending;
use crate::format::PLACES;
use crate::names::Symbol;
use crate::reference::numbers::{Comparator, Operation};
use crate::reference::state::Fact;
use crate::reference::table::{Expression, Guard, Head, Item, Rule, Slot, Table, Variable};

/// Whose numbers a program works with.
#[derive(Clone, Copy, Debug, PartialEq, Eq)]
pub enum Arithmetic {
    /// Document 01's: a value outside 32 bits, or none at all, ends the run under 3 or 4.
    Exact,
    /// SWI-Prolog's own, without bounds: for measuring its speed.
    Native,
}

/// What every program has in common. `forall` takes back what each goal did to the store.
const COMMON: &str = include_str!("swi/common.pl");

/// The program of a table and its goals. `main` runs each goal and prints how it ends.
pub fn program(table: &Table, goals: &[Vec<Fact>], arithmetic: Arithmetic) -> String {
    let mut text = COMMON.to_string();
    text += &format!("goals({}).\n", goals.len());
    for (at, goal) in goals.iter().enumerate() {
        let facts = goal.iter().map(|fact| goal_fact(table, fact));
        text += &clause(&format!("goal({})", at + 1), facts.collect());
    }
    text += &declarations(table);
    for (number, rule) in table.rules.iter().enumerate() {
        text += &rule_text(number, rule, arithmetic);
    }
    text
}

/// A clause; `true` is its body where there are no goals.
fn clause(head: &str, goals: Vec<String>) -> String {
    format!("{} :- {}.\n", head, conjunction(goals))
}

fn conjunction(goals: Vec<String>) -> String {
    if goals.is_empty() {
        "true".to_string()
    } else {
        goals.join(", ")
    }
}

/// The declarations of all symbols; every argument is a number from the start.
fn declarations(table: &Table) -> String {
    let declare = |(at, arity): (usize, &usize)| {
        let places = vec!["+int".to_string(); *arity];
        format!(":- chr_constraint {}.\n", term(Symbol(at as u8), places))
    };
    table.arities.iter().enumerate().map(declare).collect()
}

/// A symbol with something at each of its places.
fn term(symbol: Symbol, places: Vec<String>) -> String {
    named(&format!("s{}", symbol.0), places)
}

/// A name with something at each of its places; Prolog wants no brackets around nothing.
fn named(name: &str, places: Vec<String>) -> String {
    if places.is_empty() {
        name.to_string()
    } else {
        format!("{}({})", name, places.join(", "))
    }
}

fn goal_fact(table: &Table, fact: &Fact) -> String {
    let used = &fact.arguments[..table.arities[fact.symbol.index()]];
    term(fact.symbol, used.iter().map(i32::to_string).collect())
}

/// A rule, and before it the predicate of its guards where they have one.
fn rule_text(number: usize, rule: &Rule, arithmetic: Arithmetic) -> String {
    let (kept, removed) = rule.heads.split_at(rule.kept);
    let heads = match (kept, removed) {
        (_, []) => format!("{} ==> ", head_list(kept)),
        ([], _) => format!("{} <=> ", head_list(removed)),
        _ => format!("{} \\ {} <=> ", head_list(kept), head_list(removed)),
    };
    let (predicate, guards) = guards_text(number, &rule.guards, arithmetic);
    let body = body_text(&rule.body, arithmetic);
    format!("{}{}{}{}.\n", predicate, heads, guards, body)
}

fn head_list(heads: &[Head]) -> String {
    let head = |head: &Head| term(head.symbol, head.slots.iter().map(slot_text).collect());
    heads.iter().map(head).collect::<Vec<_>>().join(", ")
}

/// The guards in front of a body, and the predicate that they call.
///
/// SWI moves comparisons that it knows ahead of the search for partners. A guard that can be
/// undefined must be met only where all partners are there, and after the guards written before
/// it; so a list with an operation in it becomes one predicate, which SWI calls as it is.
fn guards_text(number: usize, guards: &[Guard], arithmetic: Arithmetic) -> (String, String) {
    if guards.is_empty() {
        return (String::new(), String::new());
    }
    let mut values = Values::new(3, arithmetic);
    let mut goals = Vec::new();
    for guard in guards {
        let (left, right) = (values.text(&guard.left), values.text(&guard.right));
        goals.append(&mut values.goals);
        goals.push(format!(
            "{} {} {}",
            left,
            comparator(guard.comparator),
            right
        ));
    }
    if values.count == 0 {
        return (String::new(), format!("{} | ", goals.join(", ")));
    }
    let variables = guard_variables(guards).iter().map(variable).collect();
    let head = named(&format!("guard{}", number), variables);
    (clause(&head, goals), format!("{} | ", head))
}

/// The variables of guards, each once.
fn guard_variables(guards: &[Guard]) -> Vec<Variable> {
    let of_guard = |guard: &Guard| [guard.left.variables(), guard.right.variables()].concat();
    let mut variables: Vec<Variable> = Vec::new();
    for variable in guards.iter().flat_map(of_guard) {
        if !variables.contains(&variable) {
            variables.push(variable);
        }
    }
    variables
}

/// A body: all arguments are worked out before any fact is told.
fn body_text(body: &[Item], arithmetic: Arithmetic) -> String {
    let mut values = Values::new(4, arithmetic);
    let mut told = Vec::new();
    for item in body {
        told.push(match item {
            Item::Fail => "fail".to_string(),
            Item::Fact { symbol, arguments } => {
                let places = arguments.iter().map(|argument| values.of(argument));
                term(*symbol, places.collect())
            }
        });
    }
    conjunction([values.goals, told].concat())
}

/// Goals that work out the values of expressions.
struct Values {
    /// The number of a run that meets an undefined one.
    number: u32,
    arithmetic: Arithmetic,
    goals: Vec<String>,
    /// How many values were named.
    count: usize,
}

impl Values {
    fn new(number: u32, arithmetic: Arithmetic) -> Values {
        Values {
            number,
            arithmetic,
            goals: Vec::new(),
            count: 0,
        }
    }

    /// An expression's value as a number or variable, worked out by a goal where it has to be.
    fn of(&mut self, expression: &Expression) -> String {
        let written = match expression {
            Expression::Alone(slot) => return slot_text(slot),
            Expression::Of(..) => expression_text(expression),
        };
        let name = format!("T{}", self.count);
        self.count += 1;
        self.goals.push(match self.arithmetic {
            Arithmetic::Exact => format!("value({}, {}, {})", self.number, written, name),
            Arithmetic::Native => format!("{} is {}", name, written),
        });
        name
    }

    /// A side of a comparison; SWI works out its own expressions there.
    fn text(&mut self, expression: &Expression) -> String {
        match self.arithmetic {
            Arithmetic::Exact => self.of(expression),
            Arithmetic::Native => expression_text(expression),
        }
    }
}

fn expression_text(expression: &Expression) -> String {
    match expression {
        Expression::Alone(slot) => slot_text(slot),
        Expression::Of(operation, first, second) => {
            let (first, second) = (slot_text(first), slot_text(second));
            format!("{} {} {}", first, operation_text(*operation), second)
        }
    }
}

fn slot_text(slot: &Slot) -> String {
    match slot {
        Slot::Constant(constant) => constant.to_string(),
        Slot::Variable(named) => variable(named),
    }
}

fn variable(variable: &Variable) -> String {
    format!("V{}", variable.0)
}

/// In SWI-Prolog `div` is the greatest whole number not above the exact quotient, and `mod` takes
/// the divisor's sign. Both are names, so they need a blank on either side.
fn operation_text(operation: Operation) -> &'static str {
    match operation {
        Operation::Sum => "+",
        Operation::Difference => "-",
        Operation::Product => "*",
        Operation::Quotient => "div",
        Operation::Remainder => "mod",
    }
}

fn comparator(comparator: Comparator) -> &'static str {
    match comparator {
        Comparator::Equal => "=:=",
        Comparator::Unequal => "=\\=",
        Comparator::Less => "<",
        Comparator::AtMost => "=<",
        Comparator::Greater => ">",
        Comparator::AtLeast => ">=",
    }
}

/// The endings that a program printed, one for each goal: `ends N`, then a line for each fact
/// with its symbol and arguments. Nothing if a line is of another sort.
pub fn endings(printed: &str) -> Option<Vec<Ending>> {
    let mut runs: Vec<(u32, Vec<Fact>)> = Vec::new();
    for line in printed.lines() {
        match line.strip_prefix("ends ") {
            Some(number) => runs.push((number.parse().ok()?, Vec::new())),
            None => runs.last_mut()?.1.push(fact(line)?),
        }
    }
    let ending = |(number, facts)| Ending::new(number, facts);
    Some(runs.into_iter().map(ending).collect())
}

/// The fact of a line with its symbol and arguments.
pub fn fact(line: &str) -> Option<Fact> {
    let mut words = line.split(' ');
    let symbol = Symbol(words.next()?.parse().ok()?);
    let mut arguments = [0; PLACES];
    for (place, word) in words.enumerate() {
        *arguments.get_mut(place)? = word.parse().ok()?;
    }
    Some(Fact { symbol, arguments })
}
