//! `bench`: the proved library against the plain engine on the same loads, in one process, in
//! turns. Prints, for each load, what the run came to, microseconds a call of both, and the
//! library's share of the plain engine's time: the median and the middle half of the rounds. With
//! an older library (feature `old_library`) the same of that one, behind the rest of the line, and
//! whether it gives the same. Of texts that are read and printed it prints the bytes of text and the
//! megabytes a second too, and leaves an older library out.

mod texts;

use nadhirukh_host::bench::large::large;
use nadhirukh_host::bench::libraries::{Lent, Library, NEW, OLD};
use nadhirukh_host::bench::loads::{chain, cycles, Load, OldAnswer};
use nadhirukh_host::bench::older::Standing;
use nadhirukh_host::bench::quotients::quotients;
use nadhirukh_host::bench::timing::{compare, worker, Compared};
use nadhirukh_host::build::table_a;
use nadhirukh_host::cases::edges;
use nadhirukh_host::format::{ANSWER_LEN, LONGEST_TABLE, MAX_LIMIT};
use nadhirukh_host::outcome::Outcome;
use nadhirukh_host::plain;

/// The places of the workers: the library, whose share of the others' time is asked for, is 0.
const PLAIN: usize = 1;
const OLDER: usize = 2;

fn main() {
    heading("check");
    check("the longest table, 23,681 bytes", &longest());
    check("table A", &table_a());
    heading("run, a cycle");
    for load in cycles() {
        run(&load);
    }
    heading("run, large tables");
    for load in large() {
        run(&load);
    }
    heading("run, quotients");
    for load in quotients() {
        run(&load);
    }
    heading("run, growth");
    for heads in 1..=4 {
        for stored in [16, 32, 64, 128] {
            run(&chain(heads, stored));
        }
    }
    texts::measure_all();
}

fn heading(what: &str) {
    let [names, lines] = match OLD {
        Some(_) => [
            " old, µs | ratio to old | middle half | old gives |",
            "---|---|---|---|",
        ],
        None => ["", ""],
    };
    println!(
        "\n| {} | steps | firings | library, µs | plain, µs | ratio | middle half |{}",
        what, names
    );
    println!("|---|---|---|---|---|---|---|{}", lines);
}

/// The good table that is as long as a table can be.
fn longest() -> Vec<u8> {
    let good = |table: &Vec<u8>| table.len() == LONGEST_TABLE && plain::check(table).number == 0;
    let tables = edges::longest_tables(1);
    tables.into_iter().find(good).expect("there is one")
}

fn check(name: &str, table: &[u8]) {
    measure(
        name,
        OldAnswer::Same,
        |library, lent| library.check(table, lent),
        |_| plain::check(table),
    );
}

fn run(load: &Load) {
    let (table, goal) = (&load.table, &load.goal);
    measure(
        &load.name,
        load.old_answer,
        |library, lent| library.run(table, goal, MAX_LIMIT, lent),
        |answer| plain::run(table, goal, MAX_LIMIT, answer),
    );
}

/// A load, given as a library's call and the plain engine's, which writes to an answer. The two have
/// to give the same. An older library that gives something else where it may not is left out.
fn measure(
    name: &str,
    old_answer: OldAnswer,
    call: impl Fn(&Library, &mut Lent) -> u32,
    plain: impl Fn(&mut [u8]) -> Outcome,
) {
    let (mut new, mut old) = (Lent::default(), Lent::default());
    let mut answer = [0; ANSWER_LEN];
    call(&NEW, &mut new);
    let outcome = plain(&mut answer);
    assert_eq!((&outcome.words()[..], answer), (new.words(), new.answer));
    let standing = OLD.map(|library| {
        call(&library, &mut old);
        Standing::new(new.difference(&old), old_answer)
    });
    let mut workers = vec![
        worker(|| call(&NEW, &mut new)),
        worker(|| plain(&mut answer).number),
    ];
    if let (Some(library), Some(true)) = (&OLD, standing.as_ref().map(Standing::is_timed)) {
        workers.push(worker(|| call(library, &mut old)));
    }
    print(name, &outcome, &compare(workers), standing);
}

fn print(name: &str, outcome: &Outcome, compared: &Compared, standing: Option<Standing>) {
    print!(
        "| {} | {} | {} | {:.2} |{}",
        name,
        outcome.steps,
        outcome.firings,
        compared.time(0) / 1e3,
        against(compared, PLAIN)
    );
    match standing {
        None => println!(),
        Some(old) if old.is_timed() => println!("{} {} |", against(compared, OLDER), old),
        Some(old) => println!(" | | | {} |", old),
    }
}

/// The time of another worker, and the library's share of it.
fn against(compared: &Compared, other: usize) -> String {
    let ratio = compared.ratio(other);
    format!(
        " {:.2} | {:.2} | {:.2} to {:.2} |",
        compared.time(other) / 1e3,
        ratio.median,
        ratio.middle[0],
        ratio.middle[1]
    )
}
