//! The numbers that the C header names, with what it says of each.

/// A line of the header that gives a number a name.
#[derive(Clone, Copy, Debug, PartialEq, Eq)]
pub struct Definition {
    /// Without the `NADHIRUKH_` before it.
    pub name: &'static str,
    pub value: usize,
    /// Empty where nothing is said.
    pub comment: &'static str,
}

const HEADER: &str = include_str!("../../include/nadhirukh.h");

/// All of them, in the header's order.
pub fn definitions() -> impl Iterator<Item = Definition> {
    HEADER.lines().filter_map(definition)
}

fn definition(line: &'static str) -> Option<Definition> {
    let (name, behind) = line.strip_prefix("#define NADHIRUKH_")?.split_once(' ')?;
    let (digits, comment) = behind.split_once(' ').unwrap_or((behind, ""));
    Some(Definition {
        name,
        value: digits.trim_end_matches(&['u', 'l'][..]).parse().ok()?,
        comment: comment.trim_matches(&['/', '*', ' '][..]),
    })
}

impl Definition {
    /// What it means and what its place is, if it is the number of an ending or a refusal.
    pub fn ending(&self) -> Option<(&'static str, &'static str)> {
        self.comment.split_once("; place: ")
    }
}
