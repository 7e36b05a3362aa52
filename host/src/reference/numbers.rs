//! Exact operations on signed 32-bit whole numbers, and comparators.

/// An operation on two numbers.
#[derive(Clone, Copy, Debug, PartialEq, Eq)]
pub enum Operation {
    Sum,
    Difference,
    Product,
    /// The greatest whole number not above the exact quotient.
    Quotient,
    /// What the dividend has beyond the divisor times that quotient: 0, or of the divisor's sign.
    Remainder,
}

impl Operation {
    /// The operation of a byte 1..5.
    pub fn from_byte(byte: u8) -> Option<Operation> {
        match byte {
            1 => Some(Operation::Sum),
            2 => Some(Operation::Difference),
            3 => Some(Operation::Product),
            4 => Some(Operation::Quotient),
            5 => Some(Operation::Remainder),
            _ => None,
        }
    }

    /// The operation's byte.
    pub fn byte(self) -> u8 {
        match self {
            Operation::Sum => 1,
            Operation::Difference => 2,
            Operation::Product => 3,
            Operation::Quotient => 4,
            Operation::Remainder => 5,
        }
    }

    /// The exact value, or nothing if it is undefined: out of range, or the divisor is 0.
    pub fn apply(self, a: i32, b: i32) -> Option<i32> {
        let (a, b) = (i64::from(a), i64::from(b));
        let exact = match self {
            Operation::Sum => a + b,
            Operation::Difference => a - b,
            Operation::Product => a * b,
            Operation::Quotient | Operation::Remainder if b == 0 => return None,
            Operation::Quotient => greatest_not_above(a, b),
            Operation::Remainder => a - b * greatest_not_above(a, b),
        };
        i32::try_from(exact).ok()
    }
}

/// The greatest whole number not above the exact quotient of a by b, which is not 0.
fn greatest_not_above(a: i64, b: i64) -> i64 {
    // The exact quotient stays when both change their sign, and `div_euclid` by a number above 0
    // rounds down.
    match b < 0 {
        true => (-a).div_euclid(-b),
        false => a.div_euclid(b),
    }
}

/// A comparison of two numbers.
#[derive(Clone, Copy, Debug, PartialEq, Eq)]
pub enum Comparator {
    Equal,
    Unequal,
    Less,
    AtMost,
    Greater,
    AtLeast,
}

impl Comparator {
    /// The comparator of a byte 0..5.
    pub fn from_byte(byte: u8) -> Option<Comparator> {
        match byte {
            0 => Some(Comparator::Equal),
            1 => Some(Comparator::Unequal),
            2 => Some(Comparator::Less),
            3 => Some(Comparator::AtMost),
            4 => Some(Comparator::Greater),
            5 => Some(Comparator::AtLeast),
            _ => None,
        }
    }

    /// The comparator's byte.
    pub fn byte(self) -> u8 {
        match self {
            Comparator::Equal => 0,
            Comparator::Unequal => 1,
            Comparator::Less => 2,
            Comparator::AtMost => 3,
            Comparator::Greater => 4,
            Comparator::AtLeast => 5,
        }
    }

    /// Whether the comparison is true.
    pub fn holds(self, a: i32, b: i32) -> bool {
        match self {
            Comparator::Equal => a == b,
            Comparator::Unequal => a != b,
            Comparator::Less => a < b,
            Comparator::AtMost => a <= b,
            Comparator::Greater => a > b,
            Comparator::AtLeast => a >= b,
        }
    }
}

#[cfg(test)]
mod tests {
    use super::Operation::{Product, Quotient, Remainder, Sum};

    const LOWEST: i32 = i32::MIN;
    const HIGHEST: i32 = i32::MAX;

    /// Quotient and remainder.
    fn divided(a: i32, b: i32) -> (Option<i32>, Option<i32>) {
        (Quotient.apply(a, b), Remainder.apply(a, b))
    }

    #[test]
    fn the_quotient_is_not_above_the_exact_one_and_the_remainder_takes_the_divisors_sign() {
        assert_eq!(divided(7, 2), (Some(3), Some(1)));
        assert_eq!(divided(-7, 2), (Some(-4), Some(1)));
        assert_eq!(divided(7, -2), (Some(-4), Some(-1)));
        assert_eq!(divided(-7, -2), (Some(3), Some(-1)));
    }

    #[test]
    fn where_nothing_is_left_the_quotient_is_the_exact_one() {
        assert_eq!(divided(8, 2), (Some(4), Some(0)));
        assert_eq!(divided(-8, 2), (Some(-4), Some(0)));
        assert_eq!(divided(8, -2), (Some(-4), Some(0)));
        assert_eq!(divided(-8, -2), (Some(4), Some(0)));
        assert_eq!(divided(0, 5), (Some(0), Some(0)));
        assert_eq!(divided(0, -5), (Some(0), Some(0)));
    }

    #[test]
    fn three_degrees_of_cold_and_of_warmth_are_in_different_classes() {
        assert_eq!(Quotient.apply(-3, 5), Some(-1));
        assert_eq!(Quotient.apply(3, 5), Some(0));
    }

    #[test]
    fn the_ends_of_the_range_are_divided_exactly() {
        assert_eq!(divided(LOWEST, -1), (None, Some(0)));
        assert_eq!(divided(LOWEST, 1), (Some(LOWEST), Some(0)));
        assert_eq!(divided(LOWEST, LOWEST), (Some(1), Some(0)));
        assert_eq!(divided(LOWEST, HIGHEST), (Some(-2), Some(HIGHEST - 1)));
        assert_eq!(divided(HIGHEST, LOWEST), (Some(-1), Some(-1)));
        assert_eq!(divided(HIGHEST, -1), (Some(-HIGHEST), Some(0)));
        assert_eq!(divided(1, LOWEST), (Some(-1), Some(LOWEST + 1)));
        assert_eq!(divided(-1, HIGHEST), (Some(-1), Some(HIGHEST - 1)));
    }

    #[test]
    fn by_zero_there_is_neither() {
        for a in [LOWEST, -1, 0, 1, HIGHEST] {
            assert_eq!(divided(a, 0), (None, None));
        }
    }

    /// Small numbers, and those at the ends of the range and around its root.
    fn numbers() -> Vec<i32> {
        let below = [LOWEST, LOWEST + 1, LOWEST / 2, -46341, -46340];
        let above = [46340, 46341, HIGHEST / 2, HIGHEST - 1, HIGHEST];
        (-40..=40).chain(below).chain(above).collect()
    }

    /// a = b·quotient + remainder, with a remainder from 0 up to, without, the divisor. Where there
    /// is no quotient, the one that would make it so is out of range.
    fn makes_the_dividend(a: i32, b: i32) -> bool {
        let (quotient, remainder) = divided(a, b);
        let remainder = remainder.expect("there is one by all but 0");
        let within = (0 <= remainder && remainder < b) || (b < remainder && remainder <= 0);
        let (times, divisor) = (i64::from(a) - i64::from(remainder), i64::from(b));
        within
            && times % divisor == 0
            && quotient.map(i64::from) == Some(times / divisor).filter(in_range)
    }

    fn in_range(number: &i64) -> bool {
        (i64::from(LOWEST)..=i64::from(HIGHEST)).contains(number)
    }

    #[test]
    fn quotient_and_remainder_make_the_dividend() {
        for a in numbers() {
            for b in numbers().into_iter().filter(|b| *b != 0) {
                assert!(makes_the_dividend(a, b), "{} by {}", a, b);
            }
        }
    }

    #[test]
    fn sums_and_products_out_of_range_are_undefined() {
        assert_eq!(Sum.apply(i32::MAX, 1), None);
        assert_eq!(Product.apply(1 << 16, 1 << 15), None);
        assert_eq!(Product.apply(-(1 << 16), 1 << 15), Some(i32::MIN));
    }
}
