//! Slots and expressions, and their values under a binding.

use crate::format::VARIABLES;

/// Tag of a constant.
pub const CONSTANT: u8 = 1;
/// Tag of a variable.
pub const VARIABLE: u8 = 2;

/// The values of a rule's variables; only those that a matched head names mean anything.
pub type Values = [i32; VARIABLES];

/// A tag and a value.
#[derive(Clone, Copy, Default)]
pub struct Slot {
    pub tag: u8,
    pub value: i32,
}

/// An operation on two slots; operation 0 is the first alone.
#[derive(Clone, Copy, Default)]
pub struct Expression {
    pub operation: u8,
    pub first: Slot,
    pub second: Slot,
}

impl Slot {
    /// A bit for the variable, if the slot is one.
    pub fn variables(self) -> u32 {
        match self.tag {
            VARIABLE => 1 << self.value,
            _ => 0,
        }
    }

    fn value(self, values: &Values) -> i32 {
        match self.tag {
            VARIABLE => values[self.value as usize],
            _ => self.value,
        }
    }
}

impl Expression {
    /// A bit for each variable.
    pub fn variables(&self) -> u32 {
        self.first.variables() | self.second.variables()
    }

    /// The value, or nothing if it is undefined.
    pub fn value(&self, values: &Values) -> Option<i32> {
        let a = self.first.value(values);
        let b = self.second.value(values);
        match self.operation {
            0 => Some(a),
            1 => a.checked_add(b),
            2 => a.checked_sub(b),
            3 => a.checked_mul(b),
            4 => quotient(a, b),
            _ => remainder(a, b),
        }
    }
}

/// The greatest whole number not above the exact quotient, or nothing if it is undefined.
fn quotient(a: i32, b: i32) -> Option<i32> {
    let cut = a.checked_div(b)?;
    Some(cut - i32::from(is_cut_upward(a % b, b)))
}

/// The remainder that goes with that quotient, or nothing by 0.
fn remainder(a: i32, b: i32) -> Option<i32> {
    if b == 0 {
        return None;
    }
    // The lowest number by -1 leaves 0, which `checked_rem` does not give.
    let left = a.wrapping_rem(b);
    Some(left + b * i32::from(is_cut_upward(left, b)))
}

/// Whether the machine's division, which cuts toward zero and leaves this, cuts upward: something
/// is left, and not of the divisor's sign. Without a branch, since the signs of readings vary.
fn is_cut_upward(left: i32, b: i32) -> bool {
    (left != 0) & ((left ^ b) < 0)
}

/// Whether a comparison is true.
pub fn holds(comparator: u8, a: i32, b: i32) -> bool {
    match comparator {
        0 => a == b,
        1 => a != b,
        2 => a < b,
        3 => a <= b,
        4 => a > b,
        _ => a >= b,
    }
}

#[cfg(test)]
mod tests {
    use super::{Expression, Slot, CONSTANT};
    use crate::format::VARIABLES;
    use crate::reference::numbers::Operation;

    /// Small numbers and the ends of the range.
    fn numbers() -> impl Iterator<Item = i32> {
        let ends = [i32::MIN, i32::MIN + 1, i32::MAX - 1, i32::MAX];
        (-9..=9).chain(ends)
    }

    fn value(operation: u8, a: i32, b: i32) -> Option<i32> {
        let [first, second] = [a, b].map(|value| Slot {
            tag: CONSTANT,
            value,
        });
        let expression = Expression {
            operation,
            first,
            second,
        };
        expression.value(&[0; VARIABLES])
    }

    #[test]
    fn every_operation_agrees_with_the_reference_at_its_edges() {
        for byte in 1..=5 {
            let operation = Operation::from_byte(byte).expect("an operation");
            for a in numbers() {
                for b in numbers() {
                    let expected = operation.apply(a, b);
                    assert_eq!(value(byte, a, b), expected, "{:?} {} {}", operation, a, b);
                }
            }
        }
    }
}
