//! `call_cases FOLDER [GROUP...]`: stored cases for a program that runs them against the proved
//! library. It writes `stdin`, the cases, and `stdout`, the lines that the reference expects.
//! Groups are `check`, `goal`, `run`, `weigh`, `find`, `read` and `print`; without a name all of them
//! are written.
//!
//! [`stored`] says how they look.

use std::collections::BTreeSet;
use std::env;
use std::path::Path;
use std::process::ExitCode;

use nadhirukh_host::cases::random::Random;
use nadhirukh_host::cases::{self, counting, edges, finding, quotients, texts, Case};
use nadhirukh_host::tools::{self, Trouble};
use nadhirukh_host::{divisions, stored, verdict, ways};

/// A group's name, and what gives its cases.
type Group = (&'static str, fn() -> Vec<Case>);

const GROUPS: [Group; 7] = [
    ("check", check_cases),
    ("goal", || pick(3, GOAL, cases::refused_run_case)),
    ("run", run_cases),
    ("weigh", || pick(5, WEIGH, cases::weigh_case)),
    ("find", find_cases),
    ("read", read_cases),
    ("print", print_cases),
];

/// The seed of all groups; a group begins its own row of cases with it.
const SEED: u64 = 2004;

/// How many cases of each number a group takes.
type Quota = &'static [(u32, usize)];

const CHECK: Quota = &[
    (0, 60),
    (16, 40),
    (17, 40),
    (18, 50),
    (19, 40),
    (20, 70),
    (21, 40),
    (22, 40),
    (23, 40),
];
const GOAL: Quota = &[(32, 45), (33, 60), (34, 30), (35, 40), (36, 40)];
const RUN: Quota = &[
    (0, 240),
    (1, 35),
    (2, 50),
    (3, 40),
    (4, 40),
    (5, 30),
    (6, 30),
    (7, 25),
];
const WEIGH: Quota = &[
    (0, 190),
    (16, 3),
    (17, 3),
    (20, 5),
    (23, 3),
    (32, 35),
    (33, 35),
    (34, 25),
    (40, 50),
    (41, 50),
    (42, 60),
];
const FIND: Quota = &[
    (0, 90),
    (16, 5),
    (17, 5),
    (18, 5),
    (19, 5),
    (20, 5),
    (21, 5),
    (22, 5),
    (23, 5),
    (40, 25),
    (42, 50),
];

// A text of more than 65,536 bytes, 48, has no room in the program of crates/call_cases.
const READ: Quota = &[
    (0, 60),
    (19, 20),
    (20, 25),
    (22, 20),
    (49, 40),
    (50, 60),
    (51, 25),
];
const PRINT: Quota = &[
    (0, 50),
    (16, 5),
    (17, 5),
    (18, 5),
    (19, 5),
    (20, 5),
    (21, 5),
    (22, 5),
    (23, 5),
    (51, 25),
];

/// The longest buffer that the program of crates/call_cases lends, and the longest text or table that
/// is picked at random.
const MOST_ROOM: usize = 4096;
const MOST_BYTES: usize = 1000;

fn main() -> ExitCode {
    tools::status("call_cases", write())
}

fn write() -> Result<ExitCode, Trouble> {
    let (folder, groups) = arguments().ok_or_else(|| {
        let names = GROUPS.map(|(name, _)| name).join(", ");
        tools::usage(&format!(
            "call_cases FOLDER [GROUP...], with GROUP of {}",
            names
        ))
    })?;
    let mut input = Vec::new();
    let mut lines = String::new();
    for (name, cases) in &groups {
        let cases = cases();
        let before = input.len();
        for case in &cases {
            input.extend(stored::case(case));
            lines += &stored::line(case, &verdict::reference(case));
            lines.push('\n');
        }
        let bytes = input.len() - before;
        println!("{}: {} cases, {} bytes", name, cases.len(), bytes);
    }
    input.push(stored::END);
    let folder = Path::new(&folder);
    tools::make_folder(folder)?;
    tools::write(&folder.join("stdin"), input)?;
    tools::write(&folder.join("stdout"), lines)?;
    Ok(ExitCode::SUCCESS)
}

/// The folder and the groups, all of them if none is named; nothing if a name is no group's.
fn arguments() -> Option<(String, Vec<Group>)> {
    let mut arguments = env::args().skip(1);
    let folder = arguments.next()?;
    let group = |name: String| GROUPS.into_iter().find(|group| group.0 == name);
    let groups: Vec<Group> = arguments.map(group).collect::<Option<_>>()?;
    let all = groups.is_empty();
    Some((folder, if all { GROUPS.into() } else { groups }))
}

/// Tables at every edge, the longest one whole and damaged, and random ones.
fn check_cases() -> Vec<Case> {
    let edges = edges::tables().into_iter();
    let all = edges.chain(edges::longest_tables(SEED));
    let mut found: Vec<Case> = all.map(Case::check).collect();
    found.extend(pick(2, CHECK, cases::check_case));
    found
}

/// Random runs, then a few of the longest table, then document 01's own run without a star, then
/// runs that divide, then runs that count heads.
fn run_cases() -> Vec<Case> {
    let mut found = pick(4, RUN, cases::run_case);
    let mut random = Random::new(SEED);
    found.extend((0..3).map(|_| cases::longest_case(&mut random)));
    found.extend([42, 43].map(cases::two_for_one_case));
    let edges = divisions::edges();
    found.extend(reaching(7, quotients::case, divisions::reached, edges));
    found.extend(counting_cases(10));
    found
}

/// Runs at the edges of counting heads, ones that ask for an occurrence again, and ones of few rules
/// that count in every way.
fn counting_cases(row: u64) -> Vec<Case> {
    let mut found = counting::edge_cases().to_vec();
    found.extend(counting::asking_again());
    let ways = ways::ways();
    found.extend(reaching(row, counting::few_rules, ways::reached, ways));
    found
}

/// Takes cases that reach one of these which none before them reached, until all are reached.
fn reaching(
    row: u64,
    generate: fn(&mut Random) -> Case,
    reached: fn(&Case) -> BTreeSet<String>,
    mut left: BTreeSet<String>,
) -> Vec<Case> {
    let mut found = Vec::new();
    for at in 0.. {
        if left.is_empty() {
            break;
        }
        let case = generate(&mut random(row, at));
        let reached = reached(&case);
        if !left.is_disjoint(&reached) {
            left.retain(|one| !reached.contains(one));
            found.push(case);
        }
    }
    found
}

/// The longest searches for weights, then random ones.
fn find_cases() -> Vec<Case> {
    let mut found = finding::longest_searches();
    found.extend(pick(6, FIND, finding::case));
    found
}

/// Texts at every edge, then random ones.
fn read_cases() -> Vec<Case> {
    let mut found = texts::edges::read_cases();
    found.extend(pick(8, READ, |random| short(random, texts::read_case)));
    found
}

/// Tables at every edge that can be printed, some that cannot, and random ones.
fn print_cases() -> Vec<Case> {
    let mut found = texts::edges::print_cases();
    found.extend(texts::edges::bad_print_cases().into_iter().step_by(6));
    found.extend(pick(9, PRINT, |random| short(random, texts::print_case)));
    found
}

/// The next case of a generator that is not too long.
fn short(random: &mut Random, generate: fn(&mut Random) -> Case) -> Case {
    loop {
        let case = generate(random);
        if case.table.len() <= MOST_BYTES && case.answer_len <= MOST_ROOM {
            return case;
        }
    }
}

/// What the case of a number in a row is made from.
fn random(row: u64, at: u64) -> Random {
    Random::new(SEED + (row << 32) + at)
}

/// Takes cases from a generator until every number's quota is full.
fn pick(row: u64, quota: Quota, generate: fn(&mut Random) -> Case) -> Vec<Case> {
    let mut left = quota.to_vec();
    let mut found = Vec::new();
    for at in 0.. {
        let case = generate(&mut random(row, at));
        let number = verdict::reference(&case).outcome.number;
        if let Some(wanted) = left.iter_mut().find(|wanted| wanted.0 == number) {
            if wanted.1 > 0 {
                wanted.1 -= 1;
                found.push(case);
            }
        }
        if left.iter().all(|wanted| wanted.1 == 0) {
            break;
        }
    }
    found
}
