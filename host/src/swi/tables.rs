//! The random tables that SWI-Prolog and the proved engine are compared on, and their goals. No
//! rule has a partner, so that the order in which an engine tries partners does not matter.

use crate::cases::random::Random;
use crate::cases::{one_headed, quotients, Plan};
use crate::format::ANSWER_LEN;
use crate::plain;

/// How many random goals are made for each table.
const GOALS: usize = 25;
/// The step limit of *run*.
const LIMIT: u32 = 1_000_000;

/// Random tables of one sort.
pub struct Tables {
    pub count: u64,
    /// What they are.
    pub what: &'static str,
    /// The name of a file for each, without its number.
    pub file: &'static str,
    table: fn(&mut Random) -> Plan,
    goal: fn(&mut Random, &Plan) -> Vec<u8>,
}

/// Anything that rules of one head can have. They do not tell a quotient rounded down from one cut
/// toward zero.
pub const ONE_HEADED: Tables = Tables {
    count: 40,
    what: "random tables of one-headed rules",
    file: "one-headed",
    table: one_headed::table,
    goal: one_headed::goal,
};

/// Rules that divide, and goals that reach every edge of quotient and remainder.
pub const DIVIDING: Tables = Tables {
    count: 20,
    what: "random tables that divide",
    file: "dividing",
    table: quotients::table,
    goal: |random, _| quotients::goal(random),
};

impl Tables {
    /// Each table with its goals: those that a run ends by the rules, and not for want of steps or
    /// room, which SWI-Prolog does not know.
    pub fn with_goals(&self) -> impl Iterator<Item = (Plan, Vec<Vec<u8>>)> + '_ {
        (0..self.count).map(|seed| {
            let mut random = Random::new(seed);
            let plan = (self.table)(&mut random);
            let table = plan.bytes();
            let goals = (0..GOALS).map(|_| (self.goal)(&mut random, &plan));
            let ended = goals.filter(|goal| ends_by_rules(&table, goal)).collect();
            (plan, ended)
        })
    }
}

fn ends_by_rules(table: &[u8], goal: &[u8]) -> bool {
    let outcome = plain::run(table, goal, LIMIT, &mut [0; ANSWER_LEN]);
    matches!(outcome.number, 0 | 1 | 3 | 4)
}
