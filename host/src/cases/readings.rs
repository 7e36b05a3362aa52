//! Runs such as a gateway makes: up to 64 readings of a few segments, of which rules leave one for
//! each. A reading may be of a wheel that stands still, by whose speed a guard divides.

use super::random::Random;
use super::Case;
use crate::build::{
    alone, constant, goal_fact, of, table, variable, Rule, AT_LEAST, AT_MOST, EQUAL, GREATER, LESS,
    QUOTIENT, UNEQUAL,
};
use crate::format::{ANSWER_LEN, MAX_GOAL};

/// mu(segment, friction).
const MU: u8 = 0;
/// reading(segment, speed difference, wheel speed, friction).
const READING: u8 = 1;

/// Readings, some as mu and some that a rule has to turn into it.
pub fn case(random: &mut Random) -> Case {
    let [s, d, v, f] = [0, 1, 2, 3].map(variable);
    let comparator = *random.pick(&[AT_MOST, AT_MOST, LESS, GREATER, AT_LEAST, EQUAL, UNEQUAL]);
    let slip = of(QUOTIENT, d, v);
    let rules = [
        Rule::new()
            .keep(MU, &[s, d])
            .remove(MU, &[s, f])
            .guard(alone(d), comparator, alone(f)),
        Rule::new()
            .remove(READING, &[s, d, v, f])
            .guard(slip, AT_LEAST, alone(constant(20)))
            .add(MU, &[alone(s), alone(f)]),
        Rule::new().remove(READING, &[s, d, v, f]),
    ];
    let facts = *random.pick(&[MAX_GOAL, MAX_GOAL, MAX_GOAL - 1, 40, 20]);
    let segments = random.between(1, 12) as u32;
    let standing = *random.pick(&[0, 0, 0, 1]);
    let goal: Vec<Vec<u8>> = (0..facts)
        .map(|_| fact(random, segments, standing))
        .collect();
    Case::run(table(&[2, 4], &rules), goal.concat(), 2_000, ANSWER_LEN)
}

/// A reading; so many of a hundred are of a wheel that stands still.
fn fact(random: &mut Random, segments: u32, standing: u64) -> Vec<u8> {
    let segment = random.up_to(segments - 1) as i32;
    let friction = 100 + random.up_to(40) as i32;
    if random.chance(50) {
        return goal_fact(MU, &[segment, friction]);
    }
    let speed = match random.chance(standing) {
        true => 0,
        false => 15 + random.up_to(10) as i32,
    };
    let difference = random.up_to(900) as i32;
    goal_fact(READING, &[segment, difference, speed, friction])
}
