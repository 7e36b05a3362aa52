//! `show FILE [LIMIT]`: reads a table followed by goal records from a file and prints the run
//! step by step, each with the sizes of stack, store and history behind it. Of a run of many steps
//! the first and the last ones are printed. Then come how often each rule fired, the ending in
//! words, the words of the result, and the facts stored.
//!
//! The status is 0 if the run is done. It is 1 for every other ending, for a refusal and for a file
//! that cannot be read, and 2 for arguments other than these. Without LIMIT the step limit is that
//! of *run*, 1,000,000.

use std::collections::VecDeque;
use std::env;
use std::io::{self, Write};
use std::path::Path;
use std::process::ExitCode;

use nadhirukh_host::format::{table_len, ANSWER_LEN};
use nadhirukh_host::names::FactId;
use nadhirukh_host::outcome::Outcome;
use nadhirukh_host::reference::run::{admit, run_read};
use nadhirukh_host::reference::state::{Entry, Fact, State, Stored};
use nadhirukh_host::reference::step::{Firing, Pruning, Step};
use nadhirukh_host::reference::table::Table;
use nadhirukh_host::tools::{self, Trouble};
use nadhirukh_host::words;

const USAGE: &str = "show FILE [LIMIT], with LIMIT a whole number of steps, 1000000 without it";
/// The step limit where none is given, as in *run*.
const LIMIT: u32 = 1_000_000;
/// How many steps are printed from the first on, and how many up to the last.
const FIRST: usize = 100;
const LAST: usize = 20;

/// What is printed of a run's steps, and how often each rule fired.
struct Trace<'a> {
    table: &'a Table,
    steps: usize,
    first: Vec<String>,
    last: VecDeque<String>,
    firings: Vec<usize>,
}

fn main() -> ExitCode {
    tools::status("show", show())
}

fn show() -> Result<ExitCode, Trouble> {
    let (file, limit) = arguments()?;
    let bytes = tools::read(Path::new(&file))?;
    let (lines, outcome) = run(&bytes, limit);
    io::stdout().write_all(lines.as_bytes())?;
    Ok(ExitCode::from(u8::from(outcome.number != 0)))
}

/// The file and the limit.
fn arguments() -> Result<(String, u32), Trouble> {
    let mut words = env::args().skip(1);
    match (words.next(), words.next(), words.next()) {
        (Some(file), None, None) => Ok((file, LIMIT)),
        (Some(file), Some(limit), None) => Ok((file, tools::number(USAGE, &limit)?)),
        _ => Err(tools::usage(USAGE)),
    }
}

/// Runs what a file holds: all that is printed of it, and the result.
fn run(bytes: &[u8], limit: u32) -> (String, Outcome) {
    // Without an end record the whole is a table, and is refused as one.
    let (table, goal) = bytes.split_at(table_len(bytes).unwrap_or(bytes.len()));
    let (mut lines, outcome, left) = match admit(table, goal, limit, ANSWER_LEN) {
        Ok((table, goal)) => run_admitted(&table, &goal, limit),
        Err(refusal) => (String::new(), refusal.into(), String::new()),
    };
    let result: Vec<String> = outcome.words().iter().map(u32::to_string).collect();
    lines += &format!("{}\n", words::ended(table, &outcome));
    lines += &format!("{}\n", result.join(" "));
    (lines + &left, outcome)
}

/// The steps of a run and how often rules fired, its result, and the facts stored.
fn run_admitted(table: &Table, goal: &[Fact], limit: u32) -> (String, Outcome, String) {
    let mut trace = Trace::new(table);
    let watch = |step: &Step, state: &State| trace.add(step, state);
    let (outcome, state) = run_read(table, goal, limit, Pruning::Prune, watch);
    let line = |stored: &Stored| format!("{} {}\n", stored.id.0, fact(&stored.fact, table));
    let left = state.store.iter().map(line).collect();
    (trace.lines(), outcome, left)
}

impl Trace<'_> {
    fn new(table: &Table) -> Trace<'_> {
        Trace {
            table,
            steps: 0,
            first: Vec::new(),
            last: VecDeque::new(),
            firings: vec![0; table.rules.len()],
        }
    }

    /// One more step, with the state behind it.
    fn add(&mut self, step: &Step, state: &State) {
        self.steps += 1;
        if let Step::Simplify(firing) | Step::Propagate(firing) = step {
            self.firings[firing.rule.index()] += 1;
        }
        let told = tell(step, self.table, state);
        let line = format!("{:4}  {:40} {}\n", self.steps, told, sizes(state));
        if self.first.len() < FIRST {
            self.first.push(line);
            return;
        }
        if self.last.len() == LAST {
            self.last.pop_front();
        }
        self.last.push_back(line);
    }

    /// The steps, an empty line, and a line for each rule that fired.
    fn lines(&self) -> String {
        let mut lines = String::new();
        lines += "step  what happens                              stack store history\n";
        lines.extend(self.first.iter().map(String::as_str));
        let left_out = self.steps - self.first.len() - self.last.len();
        if left_out > 0 {
            lines += &format!("      .. {} left out\n", counted(left_out, "step"));
        }
        lines.extend(self.last.iter().map(String::as_str));
        lines.push('\n');
        for (rule, count) in self.firings.iter().enumerate() {
            if *count > 0 {
                lines += &format!("rule {} fired {}\n", rule, counted(*count, "time"));
            }
        }
        lines
    }
}

/// A count with what is counted.
fn counted(count: usize, what: &str) -> String {
    let plural = if count == 1 { "" } else { "s" };
    format!("{} {}{}", count, what, plural)
}

/// A step in words.
fn tell(step: &Step, table: &Table, state: &State) -> String {
    match step {
        Step::Activate(active) => {
            format!("Activate {} as {}", fact(active, table), state.next.0 - 1)
        }
        Step::Fail => "Fail".to_string(),
        Step::Simplify(firing) => format!("Simplify {}", tell_firing(firing, table)),
        Step::Propagate(firing) => format!("Propagate {}", tell_firing(firing, table)),
        Step::Default(id, occurrence) => {
            format!("Default {} past occurrence {}", id.0, occurrence.0)
        }
        Step::Drop(id) => format!("Drop {}", id.0),
    }
}

/// A firing: its rule, the facts at its heads, those that leave, and its body.
fn tell_firing(firing: &Firing, table: &Table) -> String {
    let kept = table.rule(firing.rule).kept;
    let ids = |ids: &[FactId]| {
        let words: Vec<String> = ids.iter().map(|id| id.0.to_string()).collect();
        words.join(",")
    };
    let item = |entry: &Entry| match entry {
        Entry::Waiting(waiting) => fact(waiting, table),
        _ => "fail".to_string(),
    };
    let body: Vec<String> = firing.body.iter().map(item).collect();
    let (keeps, removes) = firing.identifiers.split_at(kept);
    format!(
        "rule {}: [{}] \\ [{}] -> [{}]",
        firing.rule.0,
        ids(keeps),
        ids(removes),
        body.join(", ")
    )
}

/// A fact with the arguments that its symbol uses.
fn fact(fact: &Fact, table: &Table) -> String {
    let arity = table.arities[fact.symbol.index()];
    let arguments: Vec<String> = fact.arguments[..arity].iter().map(i32::to_string).collect();
    format!("s{}({})", fact.symbol.0, arguments.join(","))
}

/// The sizes of stack, store and history.
fn sizes(state: &State) -> String {
    format!(
        "{:5} {:5} {:7}",
        state.stack.len(),
        state.store.len(),
        state.history.len()
    )
}
