//! What the programs of this package have in common: files that are named where they fail, and how
//! a program ends.
//!
//! The status is 0 where the work is done and 1 where it is not. It is 2 where a program is started
//! with arguments that it does not take, and it then says in one line how it is started.

use std::error::Error;
use std::fs;
use std::io;
use std::path::Path;
use std::process::ExitCode;
use std::str::FromStr;

/// Why a program ends before its work is done.
#[derive(Debug)]
pub enum Trouble {
    /// How it is started.
    Usage(String),
    Failed(Box<dyn Error>),
}

impl<E: Error + 'static> From<E> for Trouble {
    fn from(error: E) -> Trouble {
        Trouble::Failed(Box::new(error))
    }
}

/// The trouble of arguments that a program does not take.
pub fn usage(how: &str) -> Trouble {
    Trouble::Usage(how.to_string())
}

/// The number that an argument is, or how a program is started and which word is none.
pub fn number<T: FromStr>(how: &str, word: &str) -> Result<T, Trouble> {
    let none = |_| Trouble::Usage(format!("{}; '{}' is no such number", how, word));
    word.parse().map_err(none)
}

/// Any other trouble, in words.
pub fn failed(words: String) -> Trouble {
    Trouble::Failed(words.into())
}

/// A program's status; trouble is said first.
pub fn status(program: &str, work: Result<ExitCode, Trouble>) -> ExitCode {
    match work {
        Ok(code) => code,
        Err(Trouble::Usage(how)) => {
            eprintln!("usage: {}", how);
            ExitCode::from(2)
        }
        Err(Trouble::Failed(error)) => {
            eprintln!("{}: {}", program, error);
            ExitCode::FAILURE
        }
    }
}

/// A file's bytes.
pub fn read(path: &Path) -> io::Result<Vec<u8>> {
    fs::read(path).map_err(|error| named(path, error))
}

/// A file's text.
pub fn read_text(path: &Path) -> io::Result<String> {
    fs::read_to_string(path).map_err(|error| named(path, error))
}

/// Puts bytes in a file.
pub fn write(path: &Path, bytes: impl AsRef<[u8]>) -> io::Result<()> {
    fs::write(path, bytes).map_err(|error| named(path, error))
}

/// Sees that a folder is there.
pub fn make_folder(path: &Path) -> io::Result<()> {
    fs::create_dir_all(path).map_err(|error| named(path, error))
}

/// Sees that a program is there, if it is named by its path. Starting it would tell as well, but not
/// under every emulator.
pub fn find(program: &str) -> io::Result<()> {
    if program.contains('/') {
        fs::metadata(program).map_err(|error| named(program, error))?;
    }
    Ok(())
}

/// An error with the file, folder or program that it is about.
pub fn named(path: impl AsRef<Path>, error: io::Error) -> io::Error {
    let message = format!("{}: {}", path.as_ref().display(), error);
    io::Error::new(error.kind(), message)
}
