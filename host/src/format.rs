//! Record kinds, record lengths and limits, each named once.

/// Kind of a record that declares the next symbol.
pub const SYMBOL: u8 = 1;
/// Kind of a record that begins the next rule.
pub const RULE: u8 = 2;
/// Kind of a kept head.
pub const KEPT: u8 = 3;
/// Kind of a removed head.
pub const REMOVED: u8 = 4;
/// Kind of a guard comparison.
pub const GUARD: u8 = 5;
/// Kind of a body fact.
pub const BODY_FACT: u8 = 6;
/// Kind of a body fail.
pub const BODY_FAIL: u8 = 7;
/// Kind of the end record.
pub const END: u8 = 8;
/// Kind of a goal fact.
pub const GOAL_FACT: u8 = 16;
/// Kind of a stored fact in an answer.
pub const STORED_FACT: u8 = 17;

/// Bytes of a slot: a tag and four value bytes.
pub const SLOT_LEN: usize = 5;
/// Bytes of an expression: an operation and two slots.
pub const EXPRESSION_LEN: usize = 1 + 2 * SLOT_LEN;
/// Bytes of a goal fact, its kind included.
pub const GOAL_RECORD_LEN: usize = 18;
/// Bytes of a stored fact in an answer, its kind included.
pub const STORED_RECORD_LEN: usize = 22;

/// Places for arguments in every fact.
pub const PLACES: usize = 4;
/// Variables of a rule.
pub const VARIABLES: usize = 16;
/// Symbols of a table.
pub const MAX_SYMBOLS: usize = 32;
/// Rules of a table.
pub const MAX_RULES: usize = 64;
/// Heads of a rule, kept and removed together; at least one.
pub const MAX_HEADS: usize = 4;
/// Guard comparisons of a rule.
pub const MAX_GUARDS: usize = 4;
/// Body items of a rule, facts and fails together.
pub const MAX_ITEMS: usize = 4;
/// Bytes of the longest good table.
pub const LONGEST_TABLE: usize = 23_681;
/// Bytes of a text.
pub const MAX_TEXT: usize = 65_536;
/// Bytes of the longest text that is printed of a good table.
pub const LONGEST_PRINTED: usize = 58_390;
/// Facts of a goal.
pub const MAX_GOAL: usize = 64;
/// Facts in the store.
pub const STORE: usize = 128;
/// Entries on the stack.
pub const STACK: usize = 256;
/// Entries in the history.
pub const HISTORY: usize = 256;
/// The greatest step limit.
pub const MAX_LIMIT: u32 = 20_000_000;
/// Bytes of the shortest answer buffer.
pub const ANSWER_LEN: usize = STORE * STORED_RECORD_LEN;
/// The greatest step bound that a weighing can give.
pub const GREATEST_BOUND: u32 = 16_875_073;

/// The length of a table record's body, or nothing for a kind that no table holds.
pub fn body_len(kind: u8) -> Option<usize> {
    match kind {
        SYMBOL => Some(1),
        RULE | BODY_FAIL | END => Some(0),
        KEPT | REMOVED => Some(1 + PLACES * SLOT_LEN),
        GUARD => Some(1 + 2 * EXPRESSION_LEN),
        BODY_FACT => Some(1 + PLACES * EXPRESSION_LEN),
        _ => None,
    }
}

/// The length of a table by its records: up to and with its first end record, or nothing where
/// none is reached.
pub fn table_len(bytes: &[u8]) -> Option<usize> {
    let mut offset = 0;
    while offset < bytes.len() {
        let kind = bytes[offset];
        offset += 1 + body_len(kind)?;
        if kind == END {
            return Some(offset);
        }
    }
    None
}
