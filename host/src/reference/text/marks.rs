//! The marks of comparators and operations.

use crate::reference::numbers::{Comparator, Operation};

/// Those of comparators, in the order of their bytes 0..5.
pub const COMPARATORS: [&str; 6] = ["=", "\\=", "<", "=<", ">", ">="];
/// Those of operations, in the order of their bytes 1..5.
pub const OPERATIONS: [&str; 5] = ["+", "-", "*", "/", "%"];

/// The comparator that a mark is.
pub fn comparator(mark: &str) -> Option<Comparator> {
    Comparator::from_byte(place(&COMPARATORS, mark)?)
}

/// The operation that a mark is.
pub fn operation(mark: &str) -> Option<Operation> {
    Operation::from_byte(1 + place(&OPERATIONS, mark)?)
}

/// A comparator's mark.
pub fn of_comparator(comparator: Comparator) -> &'static str {
    COMPARATORS[usize::from(comparator.byte())]
}

/// An operation's mark.
pub fn of_operation(operation: Operation) -> &'static str {
    OPERATIONS[usize::from(operation.byte() - 1)]
}

fn place(marks: &[&str], mark: &str) -> Option<u8> {
    let place = marks.iter().position(|one| *one == mark)?;
    Some(place as u8)
}
