//! Random goals from a seed. The same seed always gives the same goal.

use crate::cases::random::Random;
use crate::format::PLACES;
use crate::names::Symbol;
use crate::reference::state::Fact;

/// Numbers from the first up to and with the last.
#[derive(Clone, Copy, Debug, PartialEq, Eq)]
pub struct Range {
    pub first: i32,
    pub last: i32,
}

/// So many facts of a symbol, each argument within its range.
#[derive(Clone, Debug, PartialEq, Eq)]
pub struct Draw {
    pub count: Range,
    pub symbol: Symbol,
    pub places: Vec<Range>,
}

/// A goal: the facts of every draw, shuffled.
pub fn goal(draws: &[Draw], seed: u64) -> Vec<Fact> {
    let mut random = Random::new(seed);
    let mut goal = Vec::new();
    for draw in draws {
        for _ in 0..draw.count.draw(&mut random) {
            goal.push(draw.fact(&mut random));
        }
    }
    shuffle(&mut goal, &mut random);
    goal
}

/// Brings a list into a random order.
pub fn shuffle<T>(list: &mut [T], random: &mut Random) {
    for end in (1..list.len()).rev() {
        list.swap(end, random.between(0, end));
    }
}

impl Range {
    /// A number of the range, which is not empty.
    fn draw(self, random: &mut Random) -> i32 {
        let numbers = i64::from(self.last) - i64::from(self.first) + 1;
        (i64::from(self.first) + random.below(numbers as u64) as i64) as i32
    }
}

impl Draw {
    fn fact(&self, random: &mut Random) -> Fact {
        let mut arguments = [0; PLACES];
        for (argument, place) in arguments.iter_mut().zip(&self.places) {
            *argument = place.draw(random);
        }
        Fact {
            symbol: self.symbol,
            arguments,
        }
    }
}
