//! Many texts and tables: the plain reader and printer agree with the reference, every number occurs,
//! and texts are refused at every position of the grammar.

use std::collections::{BTreeMap, BTreeSet};

use nadhirukh_host::cases::texts::{self, edges};
use nadhirukh_host::cases::{Call, Case};
use nadhirukh_host::format::{LONGEST_TABLE, MAX_TEXT};
use nadhirukh_host::outcome::{text_printings, text_readings, Outcome, PAST_NUMBERS};
use nadhirukh_host::plain::text as plain;
use nadhirukh_host::positions::Positions;
use nadhirukh_host::reference::{print_text, read_text};
use nadhirukh_host::verdict::{self, Verdict, FILL};

const CASES: u64 = 25_000;

/// The plain reader's or printer's verdict, with a working buffer that held something else.
fn plain_verdict(case: &Case, work: &mut Vec<u8>) -> Verdict {
    let plain = match case.call {
        Call::ReadText => plain::read_text,
        Call::PrintText => plain::print_text,
        other => panic!("{:?} has no text", other),
    };
    Verdict::of_text(case, |from, to| plain(from, to, work))
}

/// All cases at an edge.
fn edge_cases() -> Vec<Case> {
    let parts = [
        edges::read_cases(),
        edges::print_cases(),
        edges::bad_print_cases(),
        edges::long_cases(),
    ];
    parts.concat()
}

/// Each random case, and each at an edge.
fn all_cases() -> impl Iterator<Item = Case> {
    (0..CASES).map(texts::any_case).chain(edge_cases())
}

#[test]
fn the_plain_reader_and_printer_agree() {
    let mut work = Vec::new();
    for case in all_cases() {
        let expected = verdict::reference(&case);
        let told = String::from_utf8_lossy(&case.table[..case.table.len().min(300)]);
        assert_eq!(plain_verdict(&case, &mut work), expected, "{}", told);
    }
}

/// The numbers that a call gives for random cases, each with its places, and how often each occurs.
struct Seen {
    places: BTreeMap<u32, BTreeSet<u32>>,
    counts: [u32; PAST_NUMBERS],
}

fn seen(call: Call) -> Seen {
    let mut seen = Seen {
        places: BTreeMap::new(),
        counts: [0; PAST_NUMBERS],
    };
    let cases = (0..CASES).map(texts::any_case);
    for case in cases.filter(|case| case.call == call) {
        let outcome = verdict::reference(&case).outcome;
        let places = seen.places.entry(outcome.number);
        places.or_default().insert(outcome.place);
        seen.counts[outcome.number as usize] += 1;
    }
    seen
}

/// Asserts that these numbers occur, each so often, and no others.
fn occur(seen: &Seen, wanted: Vec<u32>) {
    for number in &wanted {
        let count = seen.counts[*number as usize];
        assert!(count >= 20, "number {} occurred {} times", number, count);
    }
    let mut others = seen.places.keys();
    assert!(others.all(|number| wanted.contains(number)));
}

#[test]
fn every_number_of_reading_occurs_at_many_places() {
    let seen = seen(Call::ReadText);
    occur(&seen, text_readings());
    let count = |number: u32| seen.places[&number].len();
    for (number, least) in [(19, 40), (20, 80), (22, 80), (49, 300), (50, 300)] {
        let count = count(number);
        assert!(count >= least, "number {} at {} places", number, count);
    }
    for number in [0, 48, 51] {
        assert_eq!(count(number), 1);
    }
    let last = MAX_TEXT as u32;
    assert!(seen.places[&49].range(last - 1000..).next().is_some());
    assert!(seen.places[&50].contains(&last));
}

#[test]
fn every_number_of_printing_occurs() {
    occur(&seen(Call::PrintText), text_printings());
}

/// How many of these texts are refused in each way at each position.
fn refusals(positions: &Positions, cases: impl Iterator<Item = Case>) -> BTreeMap<String, u32> {
    let mut seen = BTreeMap::new();
    for case in cases.filter(|case| case.call == Call::ReadText) {
        let outcome = verdict::reference(&case).outcome;
        if let Some(refusal) = positions.refusal(&case.table, &outcome) {
            *seen.entry(refusal).or_insert(0) += 1;
        }
    }
    seen
}

#[test]
fn random_texts_are_refused_at_every_position_of_the_grammar() {
    let positions = Positions::all();
    let seen = refusals(&positions, (0..CASES).map(texts::any_case));
    let missing = positions.refusals().into_iter();
    let missing = missing.filter(|refusal| !seen.contains_key(refusal));
    assert_eq!(missing.collect::<Vec<_>>(), Vec::<String>::new());
    let often = seen.values().filter(|count| **count >= 10).count();
    assert!(2 * often > seen.len(), "{} of {}", often, seen.len());
}

#[test]
fn edges_are_refused_at_every_position_of_the_grammar() {
    let positions = Positions::all();
    let seen = refusals(&positions, edges::read_cases().into_iter());
    let missing = positions.refusals().into_iter();
    let missing = missing.filter(|refusal| !seen.contains_key(refusal));
    assert_eq!(missing.collect::<Vec<_>>(), Vec::<String>::new());
}

#[test]
fn only_what_is_read_or_printed_is_written_and_what_is_printed_reads_back() {
    let (mut read, mut printed) = (0, 0);
    for case in all_cases() {
        let verdict = verdict::reference(&case);
        let (written, behind) = verdict.answer.split_at(verdict.length as usize);
        assert!(behind.iter().all(|byte| *byte == FILL));
        if verdict.outcome != Outcome::GOOD {
            assert_eq!(verdict.length, 0);
        } else if case.call == Call::ReadText {
            read += 1;
            reads_back(written, &print(written));
        } else {
            printed += 1;
            reads_back(&case.table, written);
        }
    }
    assert!(read > 4_000 && printed > 2_000, "{} {}", read, printed);
}

/// The text of a good table.
fn print(table: &[u8]) -> Vec<u8> {
    let mut text = vec![FILL; MAX_TEXT];
    let written = print_text(table, &mut text);
    assert_eq!(written.outcome, Outcome::GOOD);
    text.truncate(written.length as usize);
    text
}

/// Asserts that a text is read to this table.
fn reads_back(table: &[u8], text: &[u8]) {
    let mut again = vec![FILL; LONGEST_TABLE];
    let written = read_text(text, &mut again);
    assert_eq!(written.outcome, Outcome::GOOD);
    assert_eq!(&again[..written.length as usize], table);
}

/// Words of every class, more than one where they are not treated alike.
const WORDS: [&str; 16] = [
    "s0", "s1", "V0", "0", "5", "true", "fail", "=", "/", "\\", "<=>", "==>", "|", "(", ",", ".",
];

#[test]
fn the_plain_reader_agrees_on_every_short_row_of_words() {
    let mut rows: Vec<String> = vec![String::new()];
    let mut work = Vec::new();
    for _ in 0..4 {
        let longer = |row: &String| WORDS.map(|word| format!("{} {}", row, word));
        rows = rows.iter().flat_map(longer).collect();
        for row in &rows {
            for text in [row.clone(), row.replace(' ', "")] {
                let case = Case::read_text(text.into_bytes(), 200);
                assert_eq!(
                    plain_verdict(&case, &mut work),
                    verdict::reference(&case),
                    "{}",
                    row
                );
            }
        }
    }
}
