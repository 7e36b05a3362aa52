//! The loads of the benchmark, and what is said of an older library's answers to them.

use std::collections::BTreeMap;

use nadhirukh_host::bench::large::large;
use nadhirukh_host::bench::loads::{chain, cycles, Load, OldAnswer};
use nadhirukh_host::bench::older::Standing;
use nadhirukh_host::bench::quotients::quotients;
use nadhirukh_host::bench::texts::{printings, readings, Reading};
use nadhirukh_host::divisions::divides;
use nadhirukh_host::ending::Ending;
use nadhirukh_host::format::{ANSWER_LEN, LONGEST_PRINTED, LONGEST_TABLE, MAX_LIMIT, MAX_TEXT};
use nadhirukh_host::format::{MAX_RULES, MAX_SYMBOLS, PLACES};
use nadhirukh_host::names::{RuleNumber, Symbol};
use nadhirukh_host::outcome::Outcome;
use nadhirukh_host::plain;
use nadhirukh_host::reference::run::run_read;
use nadhirukh_host::reference::state::Fact;
use nadhirukh_host::reference::step::{Pruning, Step};
use nadhirukh_host::reference::table::{Head, Slot, Table};
use nadhirukh_host::reference::{self, check, goal};

fn table(load: &Load) -> Table {
    check::read(&load.table).expect("a load's table is good")
}

fn facts(load: &Load) -> Vec<Fact> {
    goal::read(&load.goal, &table(load)).expect("a load's goal is good")
}

/// What a load's run comes to, on which both engines agree to the byte.
fn run(load: &Load) -> (Outcome, Vec<Fact>) {
    let (mut answer, mut plain_answer) = ([0; ANSWER_LEN], [0; ANSWER_LEN]);
    let outcome = reference::run(&load.table, &load.goal, MAX_LIMIT, &mut answer);
    let plain_outcome = plain::run(&load.table, &load.goal, MAX_LIMIT, &mut plain_answer);
    assert_eq!(plain_outcome, outcome, "{}", load.name);
    assert_eq!(plain_answer, answer, "{}", load.name);
    (outcome, Ending::of_run(&outcome, &answer).facts)
}

/// The segment and temperature of each fact of a goal.
fn temperatures(load: &Load) -> Vec<(i32, i32)> {
    let reading = |fact: &Fact| (fact.arguments[0], fact.arguments[1]);
    facts(load).iter().map(reading).collect()
}

/// The loads that divide: in frost, then in mild weather, of each rule.
fn by_rule() -> [[Load; 2]; 2] {
    match <[Load; 4]>::try_from(quotients()) {
        Ok([class_frost, class_mild, colder_frost, colder_mild]) => {
            [[class_frost, class_mild], [colder_frost, colder_mild]]
        }
        Err(loads) => panic!("{} loads divide", loads.len()),
    }
}

/// A fact of a symbol with two places.
fn fact(symbol: u8, first: i32, second: i32) -> Fact {
    Fact {
        symbol: Symbol(symbol),
        arguments: [first, second, 0, 0],
    }
}

#[test]
fn runs_are_done_and_both_engines_agree() {
    for load in cycles().iter().chain(&large()).chain(&quotients()) {
        assert_eq!(run(load).0.number, 0, "{}", load.name);
    }
}

#[test]
fn an_older_library_may_differ_only_where_a_number_below_zero_can_be_divided() {
    let chains = (1..=4).map(|heads| chain(heads, 128));
    let loads = cycles().into_iter().chain(large()).chain(quotients());
    for load in loads.chain(chains) {
        let below_zero = |fact: &Fact| fact.arguments.iter().any(|argument| *argument < 0);
        let can_be = table(&load).rules.iter().any(divides) && facts(&load).iter().any(below_zero);
        let may_differ = load.old_answer == OldAnswer::MayDiffer;
        assert_eq!(may_differ, can_be, "{}", load.name);
    }
}

/// The loads with large tables: of one symbol, then of many.
fn by_symbols() -> [Load; 2] {
    match <[Load; 2]>::try_from(large()) {
        Ok(loads) => loads,
        Err(loads) => panic!("{} loads have large tables", loads.len()),
    }
}

/// How many heads each rule of a table has.
fn heads_of_rules(table: &Table) -> Vec<usize> {
    table.rules.iter().map(|rule| rule.heads.len()).collect()
}

/// How many heads each symbol of a table has: its occurrences.
fn heads_of_symbols(table: &Table) -> Vec<usize> {
    let mut heads = vec![0; table.arities.len()];
    for head in table.rules.iter().flat_map(|rule| &rule.heads) {
        heads[head.symbol.index()] += 1;
    }
    heads
}

/// The rules that fire for a goal, one by one.
fn fired(table: &Table, goal: &[Fact]) -> Vec<RuleNumber> {
    let mut fired = Vec::new();
    run_read(table, goal, MAX_LIMIT, Pruning::Prune, |step, _| {
        if let Step::Simplify(firing) | Step::Propagate(firing) = step {
            fired.push(firing.rule);
        }
    });
    fired
}

/// A fact that matches a head: each variable is as much as its number, so that they rise.
fn matching(head: &Head) -> Fact {
    let mut arguments = [0; PLACES];
    for (argument, slot) in arguments.iter_mut().zip(&head.slots) {
        *argument = match *slot {
            Slot::Constant(value) => value,
            Slot::Variable(variable) => i32::from(variable.0),
        };
    }
    Fact {
        symbol: head.symbol,
        arguments,
    }
}

#[test]
fn large_tables_are_full_of_rules_of_four_heads_of_one_symbol_or_two_of_many() {
    let [one, many] = by_symbols().map(|load| table(&load));
    assert_eq!(heads_of_rules(&one), [4; MAX_RULES]);
    assert_eq!(heads_of_symbols(&one), [256, 0]);
    assert_eq!(heads_of_rules(&many), [2; MAX_RULES]);
    assert_eq!(heads_of_symbols(&many), [4; MAX_SYMBOLS]);
}

#[test]
fn every_rule_of_a_large_table_can_fire() {
    for table in large().iter().map(table) {
        for (number, rule) in table.rules.iter().enumerate() {
            let goal: Vec<Fact> = rule.heads.iter().map(matching).collect();
            assert_eq!(fired(&table, &goal), [RuleNumber(number as u8)]);
        }
    }
}

#[test]
fn some_rules_of_a_large_table_fire_for_its_goal_and_most_do_not() {
    for load in large() {
        assert_eq!(facts(&load).len(), 64);
        let outcome = run(&load).0;
        assert!(outcome.steps <= 1_000_000, "{}", load.name);
        let mut fired = fired(&table(&load), &facts(&load));
        assert_eq!(fired.len(), outcome.firings as usize);
        fired.sort_by_key(|rule| rule.0);
        fired.dedup();
        assert!((8..32).contains(&fired.len()), "{}", load.name);
    }
}

#[test]
fn readings_of_many_symbols_alternate_and_each_symbol_has_two() {
    let [_, many] = by_symbols();
    let symbols: Vec<Symbol> = facts(&many).iter().map(|fact| fact.symbol).collect();
    assert!(symbols.windows(2).all(|two| two[0] != two[1]));
    for symbol in 0..MAX_SYMBOLS as u8 {
        let same = symbols.iter().filter(|other| other.0 == symbol);
        assert_eq!(same.count(), 2, "{}", symbol);
    }
}

#[test]
fn the_readings_of_four_wheels_become_those_of_two_axles() {
    let [load, _] = by_symbols();
    let mut axles = BTreeMap::<i32, [i32; 2]>::new();
    for reading in facts(&load) {
        let [segment, wheel, friction, _] = reading.arguments;
        axles.entry(segment).or_default()[wheel as usize / 2] += friction;
    }
    let left = axles.into_iter().map(|(segment, [front, rear])| Fact {
        symbol: Symbol(1),
        arguments: [segment, front, rear, 0],
    });
    assert_eq!(Ending::new(0, left.collect()).facts, run(&load).1);
}

#[test]
fn half_of_the_temperatures_in_frost_are_below_zero_and_none_in_mild_weather() {
    for [frost, mild] in by_rule() {
        let below_zero = |load: &Load| temperatures(load).iter().filter(|(_, t)| *t < 0).count();
        assert_eq!(temperatures(&frost).len(), 64);
        assert_eq!(below_zero(&frost), 32);
        assert_eq!(temperatures(&mild).len(), 64);
        assert_eq!(below_zero(&mild), 0);
    }
}

#[test]
fn which_temperatures_are_below_zero_has_no_short_pattern() {
    for [frost, _] in by_rule() {
        let below: Vec<bool> = temperatures(&frost).iter().map(|(_, t)| *t < 0).collect();
        for period in 1..=32 {
            let repeated = below.iter().zip(&below[period..]);
            let alike = repeated.filter(|(one, next)| one == next).count();
            // A pattern of this length would bring each one back, or each one's opposite.
            let pairs = below.len() - period;
            assert!(4 * alike > pairs && 4 * alike < 3 * pairs, "{}", period);
        }
    }
}

#[test]
fn every_temperature_gets_the_class_whose_five_degrees_it_lies_in() {
    let [loads, _] = by_rule();
    for load in loads {
        let (outcome, left) = run(&load);
        let classes = temperatures(&load).into_iter().map(|(segment, t)| {
            let class = (-20..20).find(|class| (5 * class..5 * class + 5).contains(&t));
            fact(1, segment, class.expect("there is one"))
        });
        assert_eq!(outcome.firings, 64);
        assert_eq!(Ending::new(0, classes.collect()).facts, left);
    }
}

#[test]
fn the_coldest_of_each_class_is_kept_on_each_segment() {
    let [_, loads] = by_rule();
    for load in loads {
        let (outcome, left) = run(&load);
        let mut coldest = BTreeMap::new();
        for (segment, t) in temperatures(&load) {
            let kept = coldest.entry((segment, t.div_euclid(5))).or_insert(t);
            *kept = t.min(*kept);
        }
        let kept = coldest
            .iter()
            .map(|((segment, _), t)| fact(0, *segment, *t));
        assert_eq!(Ending::new(0, kept.collect()).facts, left);
        assert_eq!(outcome.firings as usize, 64 - coldest.len());
        assert!(outcome.firings > 0);
    }
}

#[test]
fn frost_and_mild_weather_are_the_same_work() {
    for [frost, mild] in by_rule() {
        assert_eq!(run(&frost).0, run(&mild).0);
    }
}

#[test]
fn an_older_library_is_timed_unless_it_did_other_work() {
    let difference = || Some("the answers differ".to_string());
    let same = Standing::new(None, OldAnswer::Same);
    let same_by_chance = Standing::new(None, OldAnswer::MayDiffer);
    let other = Standing::new(difference(), OldAnswer::MayDiffer);
    let wrong = Standing::new(difference(), OldAnswer::Same);
    assert_eq!(same_by_chance, same);
    assert!(same.is_timed() && other.is_timed() && !wrong.is_timed());
    assert_eq!(same.to_string(), "the same");
    assert_eq!(other.to_string(), "other, as it may: the answers differ");
    assert_eq!(wrong.to_string(), "not comparable: the answers differ");
}

/// The number that each text is read with, by the reference and the plain reader alike, its length and
/// the room for its table.
fn read_numbers() -> Vec<(u32, usize, usize)> {
    let read = |load: Reading| {
        let (mut room, mut plain_room) = (vec![0; load.room], vec![0; load.room]);
        let written = reference::read_text(&load.text, &mut room);
        let plain = plain::text::read_text(&load.text, &mut plain_room, &mut Vec::new());
        assert_eq!((plain, plain_room), (written, room), "{}", load.name);
        (written.outcome.number, load.text.len(), load.room)
    };
    readings().into_iter().map(read).collect()
}

#[test]
fn texts_are_read_to_their_end_and_both_readers_agree() {
    let found = read_numbers();
    // The longest texts have too many rules, or heads without a declaration: all of it is read, and
    // the table is longer than any good one.
    assert!(matches!(found[0], (19, MAX_TEXT, room) if room > 4 * LONGEST_TABLE));
    assert!(matches!(found[1], (20, MAX_TEXT, room) if room > 20 * LONGEST_TABLE));
    assert_eq!(found[2], (0, LONGEST_PRINTED, LONGEST_TABLE));
    assert!(matches!(found[3], (0, 9_000.., LONGEST_TABLE)));
    assert_eq!(found[4], (0, 51, 72));
}

#[test]
fn tables_are_printed_to_their_end_and_both_printers_agree() {
    for load in printings() {
        let (mut room, mut plain_room) = (vec![0; load.room], vec![0; load.room]);
        let written = reference::print_text(&load.table, &mut room);
        let plain = plain::text::print_text(&load.table, &mut plain_room, &mut Vec::new());
        assert_eq!((plain, plain_room), (written, room), "{}", load.name);
        assert_eq!(written.length as usize, load.room, "{}", load.name);
    }
}
