//! The stored cases of crates/call_cases: what they have to hold, seen in the file itself.

use std::collections::BTreeSet;
use std::fs;
use std::path::Path;

use nadhirukh_host::cases::{any_case, texts, Call, Case};
use nadhirukh_host::outcome::{text_printings, text_readings};
use nadhirukh_host::positions::Positions;
use nadhirukh_host::{divisions, stored, verdict, ways};

fn stored_cases() -> Vec<Case> {
    let host = Path::new(env!("CARGO_MANIFEST_DIR"));
    let bytes = fs::read(host.join("../crates/call_cases/stdin")).expect("the stored cases");
    stored::cases(&bytes).expect("nothing but cases and the byte behind them")
}

#[test]
fn a_stored_case_is_read_as_it_was_written() {
    let texts = (0..500).map(texts::any_case);
    let cases: Vec<Case> = (0..500).map(any_case).chain(texts).collect();
    let mut bytes: Vec<u8> = cases.iter().flat_map(stored::case).collect();
    assert_eq!(stored::cases(&bytes), None, "without its last byte");
    bytes.push(stored::END);
    assert_eq!(stored::cases(&bytes), Some(cases));
    assert_eq!(stored::cases(&bytes[1..]), None, "without its first byte");
}

#[test]
fn the_stored_cases_divide_at_every_edge() {
    let reached: BTreeSet<String> = stored_cases().iter().flat_map(divisions::reached).collect();
    assert_eq!(reached, divisions::edges());
}

// The ways that no run can take are named in src/ways.rs, each with its reason.
#[test]
fn the_stored_cases_count_heads_in_every_way_and_at_every_edge() {
    let reached: BTreeSet<String> = stored_cases().iter().flat_map(ways::reached).collect();
    assert_eq!(reached, ways::all());
}

#[test]
fn the_stored_cases_have_room_in_the_program_that_runs_them() {
    for case in stored_cases() {
        let body = case.table.len() + case.goal.len() + case.weights.len();
        assert!(body <= 65_536 && case.answer_len <= 4_096 && case.weights.len() <= 4_096);
    }
}

/// The numbers that a call gives for the stored cases.
fn stored_numbers(call: Call) -> BTreeSet<u32> {
    let cases = stored_cases().into_iter().filter(|case| case.call == call);
    cases
        .map(|case| verdict::reference(&case).outcome.number)
        .collect()
}

#[test]
fn the_stored_texts_give_every_number_but_that_of_too_long_a_text() {
    let mut readings: BTreeSet<u32> = text_readings().into_iter().collect();
    readings.remove(&48);
    assert_eq!(stored_numbers(Call::ReadText), readings);
    let printings: BTreeSet<u32> = text_printings().into_iter().collect();
    assert_eq!(stored_numbers(Call::PrintText), printings);
}

#[test]
fn the_stored_texts_are_refused_at_every_position_of_the_grammar() {
    let positions = Positions::all();
    let mut reached = BTreeSet::new();
    for case in stored_cases() {
        let outcome = verdict::reference(&case).outcome;
        reached.extend(positions.refusal(&case.table, &outcome));
    }
    assert_eq!(reached, positions.refusals());
}
