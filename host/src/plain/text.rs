//! A plain fast reader and printer of texts: the yardstick for the speed of the proved ones, equal in
//! results to the reference.
//!
//! A text is read in one pass, byte by byte, to a working buffer that the caller keeps from call to
//! call, so nothing is allocated once it is long enough. The table in it is checked, and copied to
//! the room only where it is good, since a refused call writes nothing.

mod parse;
mod print;
mod token;

use super::check;
use crate::format::MAX_TEXT;
use crate::outcome::{Outcome, Refusal, Written};

/// Reads a text; tests 48, 49, 50, 51, then the table.
pub fn read_text(text: &[u8], room: &mut [u8], work: &mut Vec<u8>) -> Written {
    if text.len() > MAX_TEXT {
        return Refusal::at(48, 0).into();
    }
    if let Err(refusal) = parse::table(text, work) {
        return refusal.into();
    }
    if work.len() > room.len() {
        return Refusal::at(51, 0).into();
    }
    let outcome = check(work);
    if outcome != Outcome::GOOD {
        return Written { outcome, length: 0 };
    }
    Written::to(room, work)
}

/// Prints a table; tests the table, then 51.
pub fn print_text(table: &[u8], room: &mut [u8], work: &mut Vec<u8>) -> Written {
    let outcome = check(table);
    if outcome != Outcome::GOOD {
        return Written { outcome, length: 0 };
    }
    print::text(table, work);
    if work.len() > room.len() {
        return Refusal::at(51, 0).into();
    }
    Written::to(room, work)
}
