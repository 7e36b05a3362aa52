//! Texts that are read and printed, by the library and by the plain reader and printer.

use nadhirukh_host::bench::texts::{printings, readings};
use nadhirukh_host::bench::timing::{compare, worker, Compared};
use nadhirukh_host::ffi;
use nadhirukh_host::outcome::{Outcome, Written, RESULT_WORDS};
use nadhirukh_host::plain::text as plain;

/// A call of the library: what it reads, what it writes, the result and the length.
type Call = fn(&[u8], &mut [u8], &mut [u32; RESULT_WORDS], &mut u32) -> u32;
/// A call of the plain reader or printer: what it reads, what it writes, and its working buffer.
type Plain = fn(&[u8], &mut [u8], &mut Vec<u8>) -> Written;

/// Measures every text and table.
pub fn measure_all() {
    heading("read");
    for load in readings() {
        let bytes = load.text.len();
        let calls = (ffi::read_text as Call, plain::read_text as Plain);
        measure(&load.name, bytes, calls, &load.text, load.room);
    }
    heading("print");
    for load in printings() {
        let calls = (ffi::print_text as Call, plain::print_text as Plain);
        measure(&load.name, load.room, calls, &load.table, load.room);
    }
}

fn heading(what: &str) {
    println!(
        "\n| {} | bytes of text | number | library, µs | MB/s | plain, µs | MB/s | ratio | middle half |",
        what
    );
    println!("|---|---|---|---|---|---|---|---|---|");
}

/// One text or table, with this room. Both have to give the same.
fn measure(name: &str, bytes: usize, (call, plain): (Call, Plain), from: &[u8], room: usize) {
    let (mut ours, mut theirs) = (vec![0; room], vec![0; room]);
    let (mut result, mut length) = ([0; RESULT_WORDS], 0);
    let mut work = Vec::new();
    call(from, &mut ours, &mut result, &mut length);
    let outcome = Outcome::from(result);
    let written = plain(from, &mut theirs, &mut work);
    assert_eq!(Written { outcome, length }, written, "{}", name);
    assert_eq!(ours, theirs, "{}", name);
    let workers = vec![
        worker(|| call(from, &mut ours, &mut result, &mut length)),
        worker(|| plain(from, &mut theirs, &mut work).length),
    ];
    print(name, bytes, outcome.number, &compare(workers));
}

fn print(name: &str, bytes: usize, number: u32, compared: &Compared) {
    let time = |worker| {
        let nanoseconds = compared.time(worker);
        let megabytes = bytes as f64 * 1e3 / nanoseconds;
        format!("{:.2} | {:.1}", nanoseconds / 1e3, megabytes)
    };
    let ratio = compared.ratio(1);
    println!(
        "| {} | {} | {} | {} | {} | {:.2} | {:.2} to {:.2} |",
        name,
        bytes,
        number,
        time(0),
        time(1),
        ratio.median,
        ratio.middle[0],
        ratio.middle[1]
    );
}
