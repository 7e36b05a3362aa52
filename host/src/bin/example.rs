//! `example FILE [N]`: the bytes of an example's table and of its Nth goal, from 1, as the
//! programs *run* and `show` read them; without N of the table alone.
//!
//! The status is 0 if they are written, 1 if the file is no example or has no such goal, and 2 for
//! arguments other than these.

use std::env;
use std::io::{self, Write};
use std::path::Path;
use std::process::ExitCode;

use nadhirukh_host::example::{from_file, goal_bytes};
use nadhirukh_host::tools::{self, Trouble};

const USAGE: &str = "example FILE [N], with N the number of a goal, from 1";

fn main() -> ExitCode {
    tools::status("example", write())
}

fn write() -> Result<ExitCode, Trouble> {
    let (file, number) = arguments()?;
    let example = from_file(Path::new(&file))?;
    let mut bytes = example.table;
    if let Some(number) = number {
        let goal = example.goals.get(number.wrapping_sub(1)).ok_or_else(|| {
            let goals = example.goals.len();
            tools::failed(format!("{}: no goal {}, there are {}", file, number, goals))
        })?;
        bytes.extend(goal_bytes(&goal.goal));
    }
    io::stdout().write_all(&bytes)?;
    Ok(ExitCode::SUCCESS)
}

/// The file, and the goal's number if one is given.
fn arguments() -> Result<(String, Option<usize>), Trouble> {
    let mut words = env::args().skip(1);
    match (words.next(), words.next(), words.next()) {
        (Some(file), None, None) => Ok((file, None)),
        (Some(file), Some(number), None) => Ok((file, Some(tools::number(USAGE, &number)?))),
        _ => Err(tools::usage(USAGE)),
    }
}
