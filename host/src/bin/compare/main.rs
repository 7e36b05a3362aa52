//! `compare MIXTURE FOLDER CASES SEED PROGRAM [ARGUMENT...]`: random cases through the C interface,
//! of the calls that take a table (`tables`), or of texts that are read and printed (`texts`).
//!
//! PROGRAM is `c/replay.c` linked with the proved library, perhaps behind an emulator. It gets the
//! cases at every edge and then CASES random cases, a batch at a time in a file of FOLDER, and has
//! to print the lines that the reference expects. Its own part is to lend every buffer between guard
//! bytes, and to see that no call touches what it may not.
//!
//! Prints how far it is, how often each number occurred and, last, `N passed, M failed` over what
//! it tested: each call, the cases at every edge, that every number occurred, and of texts that they
//! were refused at every position of the grammar.

mod mixture;
mod tally;

use std::env;
use std::fs::File;
use std::io;
use std::path::{Path, PathBuf};
use std::process::{Command, ExitCode};
use std::sync::atomic::{AtomicU64, Ordering};
use std::sync::Mutex;
use std::thread;
use std::time::{Duration, Instant};

use mixture::{Mixture, MIXTURES};
use nadhirukh_host::cases::Case;
use nadhirukh_host::positions::Positions;
use nadhirukh_host::tools::{self, Trouble};
use nadhirukh_host::{stored, verdict};
use tally::Tally;

/// The most cases in a batch, and about the most bytes.
const BATCH: usize = 500;
const BATCH_BYTES: usize = 1 << 20;
/// How often a line says how far the comparison is.
const PROGRESS: Duration = Duration::from_secs(10);

/// What is asked for.
struct Request {
    mixture: &'static Mixture,
    folder: PathBuf,
    cases: u64,
    seed: u64,
    program: Vec<String>,
}

/// What is asked for, made ready.
struct Comparison {
    request: Request,
    /// The cases at an edge, in batches.
    edges: Vec<Vec<Sample>>,
    positions: Option<Positions>,
}

/// A case, the group that it counts in, and the seed or number that it is found by.
#[derive(Clone)]
pub struct Sample {
    group: usize,
    seed: u64,
    case: Case,
}

/// All that was tested so far, and when.
struct Progress {
    tally: Tally,
    start: Instant,
    told: Instant,
}

fn main() -> ExitCode {
    tools::status("compare", compare_all())
}

fn compare_all() -> Result<ExitCode, Trouble> {
    let request = Request::read().ok_or_else(usage)?;
    tools::find(&request.program[0])?;
    let comparison = Comparison::new(request)?;
    let progress = Mutex::new(Progress::new(comparison.request.mixture));
    let next = AtomicU64::new(0);
    let workers = thread::available_parallelism().map_or(1, usize::from);
    thread::scope(|scope| {
        let (comparison, next, progress) = (&comparison, &next, &progress);
        let start = |worker| scope.spawn(move || work(comparison, worker, next, progress));
        let started: Vec<_> = (0..workers).map(start).collect();
        let mut ended = started.into_iter().map(|worker| worker.join());
        ended.try_for_each(|worker| worker.expect("no worker panics"))
    })?;
    let progress = progress.into_inner().expect("no worker panics");
    let wanted = comparison.request.cases;
    progress.tell(wanted);
    Ok(progress.tally.report(wanted, &comparison.positions))
}

fn usage() -> Trouble {
    let names = MIXTURES.iter().map(|mixture| mixture.name);
    let names: Vec<&str> = names.collect();
    tools::usage(&format!(
        "compare MIXTURE FOLDER CASES SEED PROGRAM [ARGUMENT...], with MIXTURE of {}",
        names.join(", ")
    ))
}

impl Request {
    fn read() -> Option<Request> {
        let mut arguments = env::args().skip(1);
        let name = arguments.next()?;
        Some(Request {
            mixture: MIXTURES.iter().find(|mixture| mixture.name == name)?,
            folder: PathBuf::from(arguments.next()?),
            cases: arguments.next()?.parse().ok()?,
            seed: arguments.next()?.parse().ok()?,
            program: Some(arguments.collect()).filter(|words: &Vec<_>| !words.is_empty())?,
        })
    }
}

impl Comparison {
    fn new(request: Request) -> io::Result<Comparison> {
        let cases = (request.mixture.edges)()?;
        Ok(Comparison {
            edges: edge_batches(request.mixture, cases),
            positions: (request.mixture.positions)(),
            request,
        })
    }

    /// A batch by its number, the edges first; nothing behind the last one.
    fn batch(&self, number: u64) -> Option<Vec<Sample>> {
        if let Some(batch) = self.edges.get(number as usize) {
            return Some(batch.clone());
        }
        let request = &self.request;
        let first = (number - self.edges.len() as u64) * BATCH as u64;
        let last = request.cases.min(first + BATCH as u64);
        let seed = |at| request.seed.wrapping_mul(1 << 32).wrapping_add(at);
        let sample = |at| random_sample(request.mixture, seed(at));
        (first < last).then(|| (first..last).map(sample).collect())
    }
}

/// The cases at an edge, in batches that are not too long.
fn edge_batches(mixture: &Mixture, cases: Vec<Case>) -> Vec<Vec<Sample>> {
    let mut batches = Vec::new();
    let (mut batch, mut bytes) = (Vec::new(), 0);
    for (at, case) in cases.into_iter().enumerate() {
        bytes += case.table.len();
        batch.push(Sample {
            group: mixture.calls.len(),
            seed: at as u64,
            case,
        });
        if batch.len() == BATCH || bytes >= BATCH_BYTES {
            batches.push(batch);
            (batch, bytes) = (Vec::new(), 0);
        }
    }
    batches.push(batch);
    batches.retain(|batch| !batch.is_empty());
    batches
}

fn random_sample(mixture: &Mixture, seed: u64) -> Sample {
    let case = (mixture.any_case)(seed);
    let mut calls = mixture.calls.iter();
    let group = calls.position(|call| *call == case.call);
    Sample {
        group: group.expect("a call of the mixture"),
        seed,
        case,
    }
}

/// Takes batches until none is left.
fn work(
    comparison: &Comparison,
    worker: usize,
    next: &AtomicU64,
    progress: &Mutex<Progress>,
) -> io::Result<()> {
    let request = &comparison.request;
    let file = request.folder.join(format!("cases-{}", worker));
    while let Some(batch) = comparison.batch(next.fetch_add(1, Ordering::Relaxed)) {
        let lines = printed(&request.program, &file, &batch)?;
        let tally = compare(comparison, &batch, &lines);
        let mut progress = progress.lock().expect("no worker panics");
        progress.tally.add(tally);
        if progress.told.elapsed() >= PROGRESS {
            progress.tell(request.cases);
            progress.told = Instant::now();
        }
    }
    Ok(())
}

/// The lines that the program prints for a batch, and one more where its status is not 0.
fn printed(program: &[String], file: &Path, batch: &[Sample]) -> io::Result<Vec<String>> {
    let mut bytes: Vec<u8> = Vec::new();
    for sample in batch {
        bytes.extend(stored::case(&sample.case));
    }
    bytes.push(stored::END);
    tools::write(file, bytes)?;
    let mut command = Command::new(&program[0]);
    let output = command
        .args(&program[1..])
        .stdin(File::open(file)?)
        .output()
        .map_err(|error| tools::named(&program[0], error))?;
    let text = String::from_utf8_lossy(&output.stdout);
    let mut lines: Vec<String> = text.lines().map(String::from).collect();
    if !output.status.success() {
        lines.push(format!("the program ended with {}", output.status));
    }
    Ok(lines)
}

/// Compares what was printed with what the reference expects, line by line.
fn compare(comparison: &Comparison, batch: &[Sample], lines: &[String]) -> Tally {
    let mut tally = Tally::new(comparison.request.mixture);
    let mut lines = lines.iter();
    for sample in batch {
        let expected = verdict::reference(&sample.case);
        let (text, outcome) = (&sample.case.table, &expected.outcome);
        let positions = comparison.positions.as_ref();
        let refusal = positions.and_then(|positions| positions.refusal(text, outcome));
        tally.count(sample, outcome.number as usize, refusal);
        let expected = stored::line(&sample.case, &expected);
        let line = lines.next().map_or("nothing", String::as_str);
        if line != expected {
            tally.differ(sample, &format!("printed {}, expected {}", line, expected));
        }
    }
    for line in lines {
        let last = batch.last().expect("no batch is empty");
        tally.differ(last, &format!("printed {} behind the last case", line));
    }
    tally
}

impl Progress {
    fn new(mixture: &'static Mixture) -> Progress {
        let now = Instant::now();
        Progress {
            tally: Tally::new(mixture),
            start: now,
            told: now,
        }
    }

    /// Says how far the comparison is, and how fast.
    fn tell(&self, wanted: u64) {
        let done = self.tally.random_cases();
        let rate = done as f64 / self.start.elapsed().as_secs_f64();
        println!("{} of {} cases, {:.0} a second", done, wanted, rate);
    }
}
