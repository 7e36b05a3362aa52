//! What is compared: which cases, and what has to occur among them.

use std::io;

use nadhirukh_host::cases::{any_case, edges, finding, texts, Call, Case};
use nadhirukh_host::example;
use nadhirukh_host::outcome::{findings, table_numbers, text_printings, text_readings};
use nadhirukh_host::positions::Positions;

/// A mixture of cases.
pub struct Mixture {
    pub name: &'static str,
    /// Its calls. Each is a group of cases, and those at an edge are one more.
    pub calls: &'static [Call],
    /// The name of each group.
    pub groups: &'static [&'static str],
    pub edges: fn() -> io::Result<Vec<Case>>,
    /// The random case of a seed.
    pub any_case: fn(u64) -> Case,
    /// The numbers that have to occur.
    pub numbers: fn() -> Vec<Numbers>,
    /// The positions of the grammar at which texts have to be refused, if there are texts.
    pub positions: fn() -> Option<Positions>,
}

/// Numbers that have to occur, each of them among these calls.
pub struct Numbers {
    pub whose: &'static str,
    pub calls: &'static [Call],
    pub numbers: Vec<u32>,
}

/// The calls that take a table.
const TABLES: Mixture = Mixture {
    name: "tables",
    calls: &TABLE_CALLS,
    groups: &["check", "run", "weigh", "find", "edges"],
    edges: || Ok(table_edges()),
    any_case,
    numbers: || {
        let all = numbers("all calls", &TABLE_CALLS, table_numbers());
        let find = numbers("the search for weights", &[Call::FindWeights], findings());
        vec![all, find]
    },
    positions: || None,
};

const TABLE_CALLS: [Call; 4] = [Call::Check, Call::Run, Call::Weigh, Call::FindWeights];

/// Reading texts and printing them.
const TEXTS: Mixture = Mixture {
    name: "texts",
    calls: &[Call::ReadText, Call::PrintText],
    groups: &["read", "print", "edges"],
    edges: text_edges,
    any_case: texts::any_case,
    numbers: || {
        let read = numbers("reading", &[Call::ReadText], text_readings());
        let print = numbers("printing", &[Call::PrintText], text_printings());
        vec![read, print]
    },
    positions: || Some(Positions::all()),
};

/// Every mixture there is.
pub static MIXTURES: [Mixture; 2] = [TABLES, TEXTS];

fn numbers(whose: &'static str, calls: &'static [Call], numbers: Vec<u32>) -> Numbers {
    Numbers {
        whose,
        calls,
        numbers,
    }
}

/// The tables at every edge, the longest ones included, checked and searched for weights; and the
/// longest searches.
fn table_edges() -> Vec<Case> {
    let tables = edges::tables().into_iter().chain(edges::longest_tables(1));
    tables
        .map(Case::check)
        .chain(finding::edge_cases())
        .collect()
}

/// Texts and tables at every edge, the longest ones included, and those of the examples.
fn text_edges() -> io::Result<Vec<Case>> {
    let mut found = texts::edges::read_cases();
    found.extend(texts::edges::print_cases());
    found.extend(texts::edges::bad_print_cases());
    found.extend(texts::edges::long_cases());
    for (_, example) in example::all()? {
        found.extend(texts::edges::there_and_back(example.table));
    }
    Ok(found)
}
