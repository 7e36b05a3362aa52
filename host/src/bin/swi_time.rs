//! `swi_time FOLDER`: for each example the goal that takes the most steps, timed on SWI-Prolog's
//! CHR library and on the proved library (feature `library`), many times inside one process each.
//!
//! Prints a line for each example: facts in the goal, steps, firings, the two times of a run in
//! microseconds, and how many times as long SWI takes.

use std::env;
use std::path::Path;
use std::process::{Command, ExitCode, Stdio};
use std::time::Instant;

use nadhirukh_host::example::{goal_bytes, in_folder, Example, ANY_ORDER};
use nadhirukh_host::ffi;
use nadhirukh_host::format::ANSWER_LEN;
use nadhirukh_host::outcome::{Outcome, RESULT_WORDS};
use nadhirukh_host::plain;
use nadhirukh_host::reference::check;
use nadhirukh_host::reference::state::Fact;
use nadhirukh_host::swi::{self, Arithmetic};
use nadhirukh_host::tools::{self, Trouble};

/// The step limit of a run.
const LIMIT: u32 = 1_000_000;
/// How many random goals the longest is looked for among, beside the stored ones.
const RANDOM: u64 = 100;
/// The least mean of a batch counts, over so many rounds of so many batches, so that what else the
/// machine does counts less. A round times one side, then the other.
const ROUNDS: u32 = 5;
const BATCHES: u32 = 50;
/// Runs of a batch.
const RUNS: u32 = 20;

fn main() -> ExitCode {
    tools::status("swi_time", time())
}

fn time() -> Result<ExitCode, Trouble> {
    let folder = env::args().nth(1);
    let folder = folder.ok_or_else(|| tools::usage("swi_time FOLDER"))?;
    println!("example      facts  steps firings    SWI us proved us  ratio");
    for (name, example) in in_folder(ANY_ORDER)? {
        let (goal, outcome) = longest(&example);
        let file = Path::new(&folder).join(format!("time-{}.pl", name));
        let (mut theirs, mut ours) = (f64::INFINITY, f64::INFINITY);
        for _ in 0..ROUNDS {
            theirs = theirs.min(swi_time(&example, &goal, &file)?);
            ours = ours.min(proved_time(&example.table, &goal_bytes(&goal), outcome));
        }
        println!(
            "{:12} {:5} {:6} {:7} {:9.1} {:9.1} {:6.1}",
            name,
            goal.len(),
            outcome.steps,
            outcome.firings,
            theirs,
            ours,
            theirs / ours
        );
    }
    Ok(ExitCode::SUCCESS)
}

/// The goal that is done after the most steps, and its result.
fn longest(example: &Example) -> (Vec<Fact>, Outcome) {
    let run = |goal: Vec<Fact>| {
        let mut answer = vec![0; ANSWER_LEN];
        let outcome = plain::run(&example.table, &goal_bytes(&goal), LIMIT, &mut answer);
        (goal, outcome)
    };
    let runs = example.all_goals(RANDOM).into_iter().map(run);
    let done = runs.filter(|(_, outcome)| outcome.number == 0);
    done.max_by_key(|(_, outcome)| outcome.steps)
        .expect("some goal is done")
}

/// The time of a run on SWI-Prolog, in microseconds: its own arithmetic, without bounds.
fn swi_time(example: &Example, goal: &[Fact], file: &Path) -> Result<f64, Trouble> {
    let table = check::read(&example.table).expect("an example's table is good");
    let program = swi::program(&table, &[goal.to_vec()], Arithmetic::Native);
    tools::write(file, program)?;
    let output = Command::new("swipl")
        .args(["-q", "-O", "-t", "halt", "-g"])
        .arg(format!("time({}, {})", BATCHES, RUNS))
        .arg(file)
        .stdin(Stdio::null())
        .stderr(Stdio::inherit())
        .output()
        .map_err(|error| tools::named("swipl", error))?;
    Ok(String::from_utf8(output.stdout)?.trim().parse()?)
}

/// The time of a run of the proved library, in microseconds: the whole call, checks included.
fn proved_time(table: &[u8], goal: &[u8], expected: Outcome) -> f64 {
    let mut answer = vec![0; ANSWER_LEN];
    let mut result = [0; RESULT_WORDS];
    let batch = |_| {
        let before = Instant::now();
        for _ in 0..RUNS {
            ffi::run(table, goal, LIMIT, &mut answer, &mut result);
            assert_eq!(Outcome::from(result), expected);
        }
        before.elapsed().as_secs_f64() * 1e6 / f64::from(RUNS)
    };
    (0..BATCHES).map(batch).fold(f64::INFINITY, f64::min)
}
