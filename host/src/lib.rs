//! The second engine for Constraint Handling Rules over whole numbers, written apart from the
//! proved one, and what is needed to compare the two.
//!
//! - [`format`]: record kinds, record lengths and limits, each named once.
//! - [`names`]: fact identifiers, symbols, rules and occurrences, which count separate things.
//! - [`outcome`]: the words of a result, those of a bound, and every number there is.
//! - [`reference`](crate::reference): the second engine, written to be read.
//! - [`plain`]: a plain fast engine with the proved engine's scan, the yardstick for its speed.
//! - [`build`]: tables and goals in readable form, for tests and examples.
//! - [`example`]: programs in readable text, with goals and what they must leave.
//! - [`header`]: the numbers that the C header names.
//! - [`words`]: numbers and places in words, from the C header.
//! - [`tools`]: what the programs have in common: files by name, and how a program ends.
//! - [`ending`]: how a run ends, with what does not depend on the order of partners.
//! - [`swi`]: a table and goals as a program for SWI-Prolog's CHR library.
//! - [`bench`]: what is measured, and how engines are timed against each other.
//! - [`cases`]: random cases, good, damaged and near every limit.
//! - [`watched`]: the run of a case on the second engine, watched entry by entry.
//! - [`divisions`]: the quotients and remainders that a run works out, and the edges they reach.
//! - [`ways`]: the ways in which a run comes to the places of occurrences, and the edges it reaches.
//! - [`positions`]: the positions of the grammar of texts, and at which of them a text is refused.
//! - [`verdict`]: everything that a call gives back for a case, and the reference's verdict.
//! - [`stored`]: the form of stored cases, and the line that a program has to print for each.
//! - `ffi`: the proved library through its C interface (feature `library`).

pub mod bench;
pub mod build;
pub mod cases;
pub mod divisions;
pub mod ending;
pub mod example;
#[cfg(feature = "library")]
pub mod ffi;
pub mod format;
pub mod header;
pub mod names;
pub mod outcome;
pub mod plain;
pub mod positions;
pub mod reference;
pub mod stored;
pub mod swi;
pub mod tools;
pub mod verdict;
pub mod watched;
pub mod ways;
pub mod words;
