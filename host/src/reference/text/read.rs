//! The reader: a text of declarations and rules, and its table.

use super::{bytes, grammar, token, tree};
use crate::format::MAX_TEXT;
use crate::outcome::{Refusal, Written};
use crate::reference::check;

/// Reads a text; tests 48, 49, 50, 51, then the table's 19, 20 and 22. Only for 0 the room is
/// written, from its start.
pub fn read_text(text: &[u8], room: &mut [u8]) -> Written {
    match good_table(text, room.len()) {
        Ok(table) => Written::to(room, &table),
        Err(refusal) => refusal.into(),
    }
}

/// The table of a text, if it is good and no longer than there is room for.
fn good_table(text: &[u8], room: usize) -> Result<Vec<u8>, Refusal> {
    let table = stands_for(text)?;
    if table.len() > room {
        return Err(Refusal::at(51, 0));
    }
    check::read(&table)?;
    Ok(table)
}

/// The table that a text stands for, good or bad: the place of 19, 20 and 22 is in it.
pub fn stands_for(text: &[u8]) -> Result<Vec<u8>, Refusal> {
    if text.len() > MAX_TEXT {
        return Err(Refusal::at(48, 0));
    }
    let tokens = token::tokens(text).map_err(|at| Refusal::at(49, at))?;
    grammar::test(&tokens, text.len()).map_err(|at| Refusal::at(50, at))?;
    Ok(bytes::table(&tree::table(&tokens)))
}
