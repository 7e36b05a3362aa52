//! Many random cases: the two engines of this package agree, and every number occurs.

use std::collections::{BTreeMap, BTreeSet};

use nadhirukh_host::cases::random::Random;
use nadhirukh_host::cases::{any_case, edges, long, run_case, Call, Case};
use nadhirukh_host::outcome::{table_numbers, PAST_NUMBERS};
use nadhirukh_host::reference::run::{admit, run_read};
use nadhirukh_host::reference::step::{Pruning, Step};
use nadhirukh_host::verdict::{self, Verdict, FILL};
use nadhirukh_host::{divisions, format, plain, reference, ways};

const CASES: u64 = 20_000;

/// The plain engine's verdict, on calls of this mixture that it has.
fn plain_verdict(case: &Case) -> Option<Verdict> {
    match case.call {
        Call::Check => Some(Verdict::of_check(plain::check(&case.table))),
        Call::Run => Some(Verdict::of_run(case, plain::run)),
        _ => None,
    }
}

#[test]
fn the_plain_engine_agrees_and_every_number_occurs() {
    let mut seen = [0_u32; PAST_NUMBERS];
    for seed in 0..CASES {
        let case = any_case(seed);
        let expected = verdict::reference(&case);
        seen[expected.outcome.number as usize] += 1;
        if let Some(verdict) = plain_verdict(&case) {
            assert_eq!(verdict, expected, "seed {}", seed);
        }
    }
    for number in table_numbers() {
        let count = seen[number as usize];
        assert!(count >= 20, "number {} occurred {} times", number, count);
    }
}

#[test]
fn the_engines_agree_on_every_edge() {
    for table in edges::tables() {
        assert_eq!(
            plain::check(&table),
            reference::check(&table),
            "{:?}",
            table
        );
    }
}

#[test]
fn only_a_done_run_writes_and_only_its_records() {
    for seed in 0..2_000 {
        let case = run_case(&mut Random::new(seed));
        let verdict = verdict::reference(&case);
        let records = match verdict.outcome.number {
            0 => verdict.outcome.stored as usize * format::STORED_RECORD_LEN,
            _ => 0,
        };
        let behind = &verdict.answer[records..];
        assert!(behind.iter().all(|byte| *byte == FILL), "seed {}", seed);
    }
}

#[test]
fn pruning_the_history_changes_no_step() {
    let mut compared = 0;
    for seed in 0..2_500 {
        let case = run_case(&mut Random::new(seed));
        let (table, goal) =
            admit(&case.table, &case.goal, case.limit, case.answer_len).expect("a good case");
        let mut pruned = Vec::new();
        let mut kept = Vec::new();
        let (outcome, state) = run_read(&table, &goal, case.limit, Pruning::Prune, |step, _| {
            pruned.push(step.clone());
        });
        // With the limit on entries pruning decides about 7; up to there the steps are the same.
        let steps = if outcome.number == 7 {
            outcome.steps
        } else {
            case.limit
        };
        let (full, full_state) = run_read(&table, &goal, steps, Pruning::KeepAll, |step, _| {
            kept.push(step.clone());
        });
        assert_eq!(kept, pruned, "seed {}", seed);
        assert_eq!(full_state.store, state.store, "seed {}", seed);
        if outcome.number != 7 {
            assert_eq!(full, outcome, "seed {}", seed);
        }
        compared += u32::from(full_state.history.len() > state.history.len());
    }
    assert!(
        compared > 50,
        "pruning dropped entries in {} runs",
        compared
    );
}

/// What a run reaches of what random runs seldom reach.
fn reached(case: &Case) -> Vec<String> {
    let admitted = admit(&case.table, &case.goal, case.limit, case.answer_len);
    let (table, goal) = match admitted {
        Ok(read) if case.call == Call::Run => read,
        _ => return Vec::new(),
    };
    let (mut stack, mut history) = (0, 0);
    let mut found = Vec::new();
    let (outcome, _) = run_read(&table, &goal, case.limit, Pruning::Prune, |step, state| {
        stack = stack.max(state.stack.len());
        history = history.max(state.history.len());
        if let Step::Simplify(firing) | Step::Propagate(firing) = step {
            let heads = firing.identifiers.len();
            let kept = table.rule(firing.rule).kept;
            found.push(format!("a firing, {} of {} heads kept", kept, heads));
        }
    });
    let done = outcome.number == 0;
    let others = [
        ("done, 128 facts stored", done && outcome.stored == 128),
        ("done, 256 entries on the stack", done && stack == 256),
        ("done, 256 entries in the history", done && history == 256),
        ("done, 64 facts in the goal", done && goal.len() == 64),
        ("over 10,000 steps", outcome.steps > 10_000),
    ];
    let others = others.iter().filter(|(_, holds)| *holds);
    found.extend(others.map(|(what, _)| what.to_string()));
    found.sort();
    found.dedup();
    found
}

#[test]
fn random_runs_reach_the_end_of_every_room_and_fire_rules_of_every_shape() {
    let mut seen = BTreeMap::new();
    for seed in 0..CASES {
        for what in reached(&any_case(seed)) {
            *seen.entry(what).or_insert(0) += 1;
        }
    }
    // One to four heads with none to all of them kept, and the five others.
    assert_eq!(seen.len(), 2 + 3 + 4 + 5 + 5, "{:?}", seen);
    assert!(seen.values().all(|count| *count >= 20), "{:?}", seen);
}

/// Random runs reach each of these, often enough, and nothing else.
fn all_are_reached(all: BTreeSet<String>, reached: fn(&Case) -> BTreeSet<String>) {
    let mut seen = BTreeMap::new();
    for seed in 0..CASES {
        for what in reached(&any_case(seed)) {
            *seen.entry(what).or_insert(0) += 1;
        }
    }
    assert_eq!(seen.keys().cloned().collect::<BTreeSet<_>>(), all);
    assert!(seen.values().all(|count| *count >= 20), "{:?}", seen);
}

#[test]
fn random_runs_divide_at_every_edge() {
    all_are_reached(divisions::edges(), divisions::reached);
}

#[test]
fn random_runs_count_heads_in_every_way_and_at_every_edge() {
    all_are_reached(ways::all(), ways::reached);
}

#[test]
fn a_long_run_gives_more_identifiers_than_16_bits_hold() {
    let cases = (0..200).map(|seed| long::case(&mut Random::new(seed)));
    let identifiers = |case: Case| verdict::reference(&case).outcome.identifiers;
    assert!(cases.map(identifiers).any(|given| given > 65_536));
}
