//! Programs in readable text, with goals and what they must leave: the files of `examples/`.
//!
//! `token` parts a text into words, `cursor` is a place among them, `reader` and `rule` take what
//! stands there, and [`draw`] makes random goals from a seed.

pub mod draw;

mod cursor;
mod reader;
mod rule;
mod token;

use std::error;
use std::fmt;
use std::fs;
use std::io;
use std::path::Path;

use crate::build;
use crate::ending::Ending;
use crate::reference::state::Fact;
use crate::tools::{named, read_text};
use draw::Draw;

/// A symbol's name and arity.
#[derive(Clone, Debug, PartialEq, Eq)]
pub struct Declared {
    pub name: String,
    pub arity: usize,
}

/// A goal, and how its run ends.
#[derive(Clone, Debug, PartialEq, Eq)]
pub struct Stored {
    pub goal: Vec<Fact>,
    pub ending: Ending,
}

/// A program with its goals.
#[derive(Clone, Debug, Default)]
pub struct Example {
    /// In the order of their numbers.
    pub symbols: Vec<Declared>,
    /// A good table's bytes.
    pub table: Vec<u8>,
    pub goals: Vec<Stored>,
    /// What a random goal is made of; empty if there is none.
    pub draws: Vec<Draw>,
}

/// A place in a text.
#[derive(Clone, Copy, Debug, PartialEq, Eq)]
pub struct Place {
    /// From 1.
    pub line: usize,
    /// From 1, in characters.
    pub column: usize,
}

/// Why a text is no example, and where.
#[derive(Clone, Debug, PartialEq, Eq)]
pub struct Error {
    pub place: Place,
    pub message: String,
}

impl fmt::Display for Error {
    fn fmt(&self, f: &mut fmt::Formatter) -> fmt::Result {
        let Place { line, column } = self.place;
        write!(f, "line {}, column {}: {}", line, column, self.message)
    }
}

impl error::Error for Error {}

impl Example {
    /// Reads a text.
    pub fn read(text: &str) -> Result<Example, Error> {
        reader::read(text)
    }

    /// The stored goals, then `random` random ones; the same every time.
    pub fn all_goals(&self, random: u64) -> Vec<Vec<Fact>> {
        let stored = self.goals.iter().map(|stored| stored.goal.clone());
        let seeds = if self.draws.is_empty() { 0 } else { random };
        let drawn = (0..seeds).map(|seed| draw::goal(&self.draws, seed));
        stored.chain(drawn).collect()
    }

    /// A fact with its symbol's name.
    pub fn tell(&self, fact: &Fact) -> String {
        let declared = &self.symbols[fact.symbol.index()];
        let used = fact.arguments[..declared.arity].iter();
        let arguments: Vec<String> = used.map(i32::to_string).collect();
        if arguments.is_empty() {
            declared.name.clone()
        } else {
            format!("{}({})", declared.name, arguments.join(", "))
        }
    }

    /// Facts with their symbols' names; `true` for none, as in the text.
    pub fn tell_all(&self, facts: &[Fact]) -> String {
        let told: Vec<String> = facts.iter().map(|fact| self.tell(fact)).collect();
        if told.is_empty() {
            "true".to_string()
        } else {
            told.join(", ")
        }
    }
}

/// The folder of the examples whose result does not depend on the order of partners.
pub const ANY_ORDER: &str = "examples";
/// The folder of those whose result does.
pub const BY_ORDER: &str = "examples/order";
/// The folder of those whose result depends on the order of the goal.
pub const BY_GOAL: &str = "examples/goal_order";

/// A goal's bytes.
pub fn goal_bytes(goal: &[Fact]) -> Vec<u8> {
    let record = |fact: &Fact| build::goal_fact(fact.symbol.0, &fact.arguments);
    goal.iter().flat_map(record).collect()
}

/// The examples of a folder of the repository by name, sorted.
pub fn in_folder(folder: &str) -> io::Result<Vec<(String, Example)>> {
    let folder = Path::new(env!("CARGO_MANIFEST_DIR"))
        .join("..")
        .join(folder);
    let mut examples = Vec::new();
    for entry in fs::read_dir(&folder).map_err(|error| named(&folder, error))? {
        let path = entry?.path();
        if path.extension().map_or(false, |ending| ending == "chr") {
            let name = path.file_stem().unwrap_or_default().to_string_lossy();
            examples.push((name.to_string(), from_file(&path)?));
        }
    }
    examples.sort_by(|a, b| a.0.cmp(&b.0));
    Ok(examples)
}

/// The examples of all folders by name.
pub fn all() -> io::Result<Vec<(String, Example)>> {
    let folders = [ANY_ORDER, BY_ORDER, BY_GOAL].map(in_folder);
    let found: Vec<_> = folders.into_iter().collect::<io::Result<_>>()?;
    Ok(found.into_iter().flatten().collect())
}

/// The example in a file; an error names the file.
pub fn from_file(path: &Path) -> io::Result<Example> {
    let wrong = |error: Error| io::Error::new(io::ErrorKind::InvalidData, error);
    Example::read(&read_text(path)?).map_err(|error| named(path, wrong(error)))
}
