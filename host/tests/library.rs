//! The proved library against the reference, through the C interface (feature `library`).
#![cfg(feature = "library")]

use nadhirukh_host::cases::{any_case, edges, finding, texts, Case};
use nadhirukh_host::{ffi, verdict};

#[test]
fn random_cases_give_equal_numbers_and_bytes() {
    for seed in 0..20_000 {
        let case = any_case(seed);
        let expected = Ok(verdict::reference(&case));
        assert_eq!(ffi::verdict(&case), expected, "seed {}", seed);
    }
}

#[test]
fn tables_at_every_edge_give_equal_numbers_and_bytes() {
    let tables = edges::tables().into_iter().chain(edges::longest_tables(1));
    for case in tables.map(Case::check).chain(finding::edge_cases()) {
        assert_eq!(ffi::verdict(&case), Ok(verdict::reference(&case)));
    }
}

#[test]
fn random_texts_give_equal_numbers_and_bytes() {
    for seed in 0..20_000 {
        let case = texts::any_case(seed);
        let expected = Ok(verdict::reference(&case));
        assert_eq!(ffi::verdict(&case), expected, "seed {}", seed);
    }
}

#[test]
fn texts_at_every_edge_give_equal_numbers_and_bytes() {
    let cases = [
        texts::edges::read_cases(),
        texts::edges::print_cases(),
        texts::edges::bad_print_cases(),
        texts::edges::long_cases(),
    ];
    for case in cases.concat() {
        assert_eq!(ffi::verdict(&case), Ok(verdict::reference(&case)));
    }
}
