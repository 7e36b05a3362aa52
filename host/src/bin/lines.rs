//! `lines FOLDER`: inputs for the program *run*, `NAME.in`, and what it must print for each,
//! `NAME.out`, by the second engine.

use std::env;
use std::path::Path;
use std::process::ExitCode;

use nadhirukh_host::build::{goal, table_a};
use nadhirukh_host::cases::random::Random;
use nadhirukh_host::cases::{self, Case};
use nadhirukh_host::format::{table_len, ANSWER_LEN, LONGEST_TABLE, STORED_RECORD_LEN};
use nadhirukh_host::tools::{self, Trouble};
use nadhirukh_host::verdict;

/// The step limit of *run*.
const LIMIT: u32 = 1_000_000;
/// The longest input that *run* takes: the longest good table and 64 goal facts.
const LONGEST_INPUT: usize = LONGEST_TABLE + 64 * 18;
/// How many random inputs there are beside the ones with a name.
const RANDOM: u64 = 60;

fn main() -> ExitCode {
    tools::status("lines", write())
}

fn write() -> Result<ExitCode, Trouble> {
    let folder = env::args().nth(1);
    let folder = folder.ok_or_else(|| tools::usage("lines FOLDER"))?;
    tools::make_folder(Path::new(&folder))?;
    let random = (0..RANDOM).map(|seed| (format!("random-{}", seed), random_input(seed)));
    for (name, input) in named().into_iter().chain(random) {
        let file = |ending: &str| Path::new(&folder).join(format!("{}.{}", name, ending));
        tools::write(&file("in"), &input)?;
        tools::write(&file("out"), lines(&input))?;
    }
    Ok(ExitCode::SUCCESS)
}

/// Inputs at the edges of what *run* itself decides.
fn named() -> Vec<(String, Vec<u8>)> {
    let readings = goal(&[(0, &[7, 310]), (0, &[7, 280]), (0, &[7, 295])]);
    let signs = goal(&[(0, &[-1, i32::MIN]), (0, &[0, i32::MAX])]);
    let zeros = |len: usize| vec![0; len];
    let inputs = [
        ("readings", [table_a(), readings.clone()].concat()),
        ("signs", [table_a(), signs].concat()),
        ("nothing", Vec::new()),
        ("no-goal", table_a()),
        ("no-end", table_a()[..71].to_vec()),
        ("end-inside-a-record", [&table_a()[..6], &[8; 90]].concat()),
        ("goal-cut", [table_a(), readings[..53].to_vec()].concat()),
        ("as-long-as-can-be", zeros(LONGEST_INPUT)),
        (
            "goal-too-long",
            [table_a(), zeros(LONGEST_INPUT - 72)].concat(),
        ),
        ("too-long", zeros(LONGEST_INPUT + 1)),
        ("far-too-long", zeros(100_000)),
    ];
    inputs.map(|(name, input)| (name.to_string(), input)).into()
}

/// A random run's table and goal.
fn random_input(seed: u64) -> Vec<u8> {
    let case = cases::run_case(&mut Random::new(seed));
    [case.table, case.goal].concat()
}

/// What *run* prints for an input.
fn lines(input: &[u8]) -> String {
    if input.len() > LONGEST_INPUT {
        return "input too long\n".to_string();
    }
    let (table, goal) = input.split_at(table_len(input).unwrap_or(input.len()));
    let case = Case::run(table.to_vec(), goal.to_vec(), LIMIT, ANSWER_LEN);
    let verdict = verdict::reference(&case);
    let mut lines = words(verdict.outcome.words().iter().map(u32::to_string));
    if verdict.outcome.number == 0 {
        let stored = verdict.outcome.stored as usize;
        for record in verdict.answer.chunks(STORED_RECORD_LEN).take(stored) {
            lines += &words(fact(table, record));
        }
    }
    lines
}

/// A stored fact's identifier, symbol and arguments used.
fn fact(table: &[u8], record: &[u8]) -> impl Iterator<Item = String> {
    let word = |at: usize| [record[at], record[at + 1], record[at + 2], record[at + 3]];
    let symbol = record[5];
    let arity = table[2 * symbol as usize + 1] as usize;
    let arguments = (0..arity).map(|place| i32::from_le_bytes(word(6 + 4 * place)).to_string());
    let mut words = vec![u32::from_le_bytes(word(1)).to_string(), symbol.to_string()];
    words.extend(arguments);
    words.into_iter()
}

fn words(words: impl Iterator<Item = String>) -> String {
    words.collect::<Vec<_>>().join(" ") + "\n"
}
