//! Loads that divide: temperatures in classes of five degrees, with numbers below zero and without.

use super::loads::{readings, Load, OldAnswer, READINGS};
use crate::build::{alone, constant, of, table, variable, Expression, Rule, Slot};
use crate::build::{AT_MOST, EQUAL, QUOTIENT};
use crate::cases::random::Random;
use crate::example::draw::shuffle;

/// The segments that the temperatures are of.
const SEGMENTS: i32 = 4;

/// As many temperatures as there are readings, each once, from the lowest on.
struct Temperatures {
    lowest: i32,
    said: &'static str,
    old_answer: OldAnswer,
}

const FROST: Temperatures = Temperatures {
    lowest: -READINGS / 2,
    said: "half of them below zero",
    old_answer: OldAnswer::MayDiffer,
};

/// The same seven classes higher. The same ones share a class, so the rules do the same work.
const MILD: Temperatures = Temperatures {
    lowest: FROST.lowest + 7 * 5,
    said: "none below zero",
    old_answer: OldAnswer::Same,
};

/// A quotient in a body and quotients in a guard, each in frost and in mild weather.
pub fn quotients() -> Vec<Load> {
    vec![class(&FROST), class(&MILD), colder(&FROST), colder(&MILD)]
}

/// temperature(S, T) <=> class(S, T / 5).
fn class(temperatures: &Temperatures) -> Load {
    let [s, t] = [0, 1].map(variable);
    let rule = Rule::new()
        .remove(0, &[s, t])
        .add(1, &[alone(s), class_of(t)]);
    Load {
        name: format!(
            "five-degree class of 64 temperatures, {}",
            temperatures.said
        ),
        table: table(&[2, 2], &[rule]),
        goal: temperatures.goal(),
        old_answer: temperatures.old_answer,
    }
}

/// temperature(S, A) \ temperature(S, B) <=> A / 5 = B / 5, A =< B | true: of two temperatures of a
/// class the colder is kept. Each pair of a segment divides, and most are of two classes.
fn colder(temperatures: &Temperatures) -> Load {
    let [s, a, b] = [0, 1, 2].map(variable);
    let rule = Rule::new()
        .keep(0, &[s, a])
        .remove(0, &[s, b])
        .guard(class_of(a), EQUAL, class_of(b))
        .guard(alone(a), AT_MOST, alone(b));
    Load {
        name: format!(
            "the colder of each class, 64 temperatures on 4 segments, {}",
            temperatures.said
        ),
        table: table(&[2], &[rule]),
        goal: temperatures.goal(),
        old_answer: temperatures.old_answer,
    }
}

fn class_of(temperature: Slot) -> Expression {
    of(QUOTIENT, temperature, constant(5))
}

impl Temperatures {
    /// The goal, in an order without a short pattern: a processor that foresees branches should not
    /// learn from a few readings which of the next lie below zero.
    fn goal(&self) -> Vec<u8> {
        let mut shuffled: Vec<i32> = (self.lowest..self.lowest + READINGS).collect();
        shuffle(&mut shuffled, &mut Random::new(5));
        readings(|reading| (0, [reading % SEGMENTS, shuffled[reading as usize]]))
    }
}
