//! Random cases from a seed: good, damaged and near every limit. The same seed always gives the
//! same case.

pub mod corners;
pub mod counting;
pub mod damage;
pub mod edges;
pub mod finding;
pub mod goals;
pub mod joins;
pub mod long;
pub mod one_headed;
pub mod quotients;
pub mod random;
pub mod readings;
pub mod rooms;
pub mod rules;
pub mod tables;
pub mod texts;

use crate::build::{self, Rule};
use crate::format::{ANSWER_LEN, MAX_LIMIT};
use crate::outcome::Outcome;
use crate::plain;
use random::Random;
use tables::Style;

/// The call that a case is for.
#[derive(Clone, Copy, Debug, PartialEq, Eq)]
pub enum Call {
    Check,
    Run,
    Weigh,
    FindWeights,
    ReadText,
    PrintText,
}

/// A call's input; what the call does not take is empty or 0.
#[derive(Clone, Debug, PartialEq, Eq)]
pub struct Case {
    pub call: Call,
    /// The table, or the text to read.
    pub table: Vec<u8>,
    pub goal: Vec<u8>,
    /// The weights to weigh with, or what the buffer for those to be found holds before the call.
    pub weights: Vec<u8>,
    pub limit: u32,
    /// The length of the buffer that the call writes to: an answer, a table or a text.
    pub answer_len: usize,
}

/// A table before its bytes: what goals, weights and damage are made from.
#[derive(Clone, Debug)]
pub struct Plan {
    pub arities: Vec<u8>,
    pub rules: Vec<Rule>,
    /// The most facts that a goal should have so that no search grows too long.
    pub most_facts: usize,
    /// The most steps that a run should be given, for the same reason.
    pub most_steps: u32,
}

impl Plan {
    /// The table's bytes.
    pub fn bytes(&self) -> Vec<u8> {
        build::table(&self.arities, &self.rules)
    }

    /// The table's records.
    pub fn records(&self) -> Vec<Vec<u8>> {
        build::records(&self.arities, &self.rules)
    }
}

/// A case of any sort.
pub fn any_case(seed: u64) -> Case {
    let mut random = Random::new(seed);
    match random.below(200) {
        0..=45 => check_case(&mut random),
        46..=51 => edge_case(&mut random),
        52..=70 => refused_run_case(&mut random),
        71..=108 => run_case(&mut random),
        109..=116 => counting_case(&mut random),
        117..=142 => weigh_case(&mut random),
        143..=162 => finding::case(&mut random),
        163..=198 => scene_case(&mut random),
        _ => long::case(&mut random),
    }
}

/// A run that is made to reach what random tables seldom reach: the last place of a room, rules
/// with many heads that fire, goals of 64 facts, divisions of every sort.
pub fn scene_case(random: &mut Random) -> Case {
    let case = match random.below(36) {
        0..=4 => rooms::case(random),
        5..=18 => joins::case(random),
        19..=27 => readings::case(random),
        _ => quotients::case(random),
    };
    with_limit_near(random, case)
}

/// A run that comes to occurrences in ways that random tables seldom take.
pub fn counting_case(random: &mut Random) -> Case {
    let case = counting::case(random);
    with_limit_near(random, case)
}

/// The run with a step limit around its own length.
fn with_limit_near(random: &mut Random, mut case: Case) -> Case {
    let outcome = plain_outcome(&case);
    case.limit = limit_near(random, case.limit, outcome);
    case
}

/// A table to check: mostly a damaged one.
pub fn check_case(random: &mut Random) -> Case {
    let style = Style::any(random);
    let plan = tables::table(random, style);
    let table = match random.below(6) {
        0 => plan.bytes(),
        _ => damage::table(random, &plan),
    };
    Case::check(table)
}

/// One of the tables near a limit, to check, or to run with an empty goal.
pub fn edge_case(random: &mut Random) -> Case {
    if random.chance(5) {
        return longest_case(random);
    }
    let edges = edges::tables();
    let table = random.pick(&edges).clone();
    if random.chance(50) {
        return Case::check(table);
    }
    Case::run(table, Vec::new(), random.up_to(3), ANSWER_LEN)
}

/// The longest good table with a goal.
pub fn longest_case(random: &mut Random) -> Case {
    let plan = tables::longest(random);
    let goal = goals::goal(random, &plan, plan.most_facts);
    Case::run(plan.bytes(), goal, plan.most_steps, ANSWER_LEN)
}

/// `a ==> b, b` with so many facts `a`: document 01's worked run without a star has 42 and 43.
pub fn two_for_one_case(facts: usize) -> Case {
    let rule = Rule::new().keep(0, &[]).add(1, &[]).add(1, &[]);
    let goal = build::goal(&vec![(0, &[][..]); facts]);
    Case::run(build::table(&[0, 0], &[rule]), goal, 1_000_000, ANSWER_LEN)
}

/// A run that is refused, mostly by its goal, limit or answer buffer.
pub fn refused_run_case(random: &mut Random) -> Case {
    let style = Style::any(random);
    let plan = tables::table(random, style);
    let mut case = Case::run(plan.bytes(), Vec::new(), 100, ANSWER_LEN);
    case.goal = goals::goal(random, &plan, plan.most_facts);
    // Each fault may come with others, since the order of the tests counts too.
    if random.chance(60) {
        case.goal = goals::damaged(random, &plan);
    }
    if random.chance(35) {
        case.limit = *random.pick(&[MAX_LIMIT + 1, MAX_LIMIT + 2, u32::MAX, 1 << 31]);
    }
    if random.chance(35) {
        let short = random.below(ANSWER_LEN as u64) as usize;
        case.answer_len = *random.pick(&[ANSWER_LEN - 1, 0, short]);
    }
    if random.chance(4) {
        case.table = damage::table(random, &plan);
    }
    case
}

/// A run of a good table and goal, mostly one with a firing in it.
pub fn run_case(random: &mut Random) -> Case {
    let mut case = good_run(random);
    let mut outcome = plain_outcome(&case);
    for _ in 0..2 {
        if outcome.firings == 0 {
            case = good_run(random);
            outcome = plain_outcome(&case);
        }
    }
    case.limit = limit_near(random, case.limit, outcome);
    case
}

/// A good table and goal, with the most steps that its plan allows.
fn good_run(random: &mut Random) -> Case {
    if random.chance(4) {
        return corners::case(random);
    }
    let style = Style::any(random);
    let plan = tables::table(random, style);
    let goal = goals::goal(random, &plan, plan.most_facts);
    let extra = *random.pick(&[0, 0, 0, 1, 21, 22, 500]);
    Case::run(plan.bytes(), goal, plan.most_steps, ANSWER_LEN + extra)
}

fn plain_outcome(case: &Case) -> Outcome {
    let mut answer = vec![0; case.answer_len];
    plain::run(&case.table, &case.goal, case.limit, &mut answer)
}

/// A step limit around the run's own length. One that is much greater is given only to a run
/// that ends early, so that no case takes long.
fn limit_near(random: &mut Random, limit: u32, outcome: Outcome) -> u32 {
    if outcome.number == 2 {
        let few = random.up_to(20);
        return *random.pick(&[limit, limit, few]);
    }
    let steps = outcome.steps;
    match random.below(12) {
        0 => steps,
        1 => steps.saturating_sub(1),
        2 => steps + 1,
        3 => random.up_to(steps),
        4 => random.up_to(3),
        5 | 6 => MAX_LIMIT,
        _ => limit,
    }
}

/// A table to weigh.
pub fn weigh_case(random: &mut Random) -> Case {
    let (plan, mut weights) = tables::weighed(random);
    if random.chance(30) {
        goals::change_weights(random, &mut weights);
    }
    let mut table = plan.bytes();
    if random.chance(5) {
        table = damage::table(random, &plan);
    }
    let mut goal = goals::goal(random, &plan, 64);
    if random.chance(20) {
        goal = goals::damaged(random, &plan);
    }
    Case {
        call: Call::Weigh,
        table,
        goal,
        weights,
        limit: 0,
        answer_len: 0,
    }
}

impl Case {
    /// A case that checks a table.
    pub fn check(table: Vec<u8>) -> Case {
        Case {
            call: Call::Check,
            table,
            goal: Vec::new(),
            weights: Vec::new(),
            limit: 0,
            answer_len: 0,
        }
    }

    /// A case that runs a goal.
    pub fn run(table: Vec<u8>, goal: Vec<u8>, limit: u32, answer_len: usize) -> Case {
        Case {
            call: Call::Run,
            table,
            goal,
            weights: Vec::new(),
            limit,
            answer_len,
        }
    }

    /// A case that reads a text to a table of at most so many bytes.
    pub fn read_text(text: Vec<u8>, room: usize) -> Case {
        Case {
            call: Call::ReadText,
            ..Case::run(text, Vec::new(), 0, room)
        }
    }

    /// A case that prints a table to a text of at most so many bytes.
    pub fn print_text(table: Vec<u8>, room: usize) -> Case {
        Case {
            call: Call::PrintText,
            ..Case::run(table, Vec::new(), 0, room)
        }
    }

    /// A case that looks for weights, with what the buffer for them holds before.
    pub fn find_weights(table: Vec<u8>, buffer: Vec<u8>) -> Case {
        Case {
            call: Call::FindWeights,
            table,
            goal: Vec::new(),
            weights: buffer,
            limit: 0,
            answer_len: 0,
        }
    }
}
