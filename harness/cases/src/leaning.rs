//! Which way a result leans, from the case's own terms in exact arithmetic. The original has no such field.

use std::collections::BTreeMap;

use crate::case::{Case, Operation};
use crate::shape::{Decoded, Encodings, Shape};

pub const EQUAL: u8 = 0;
pub const BELOW: u8 = 1;
pub const ABOVE: u8 = 2;
pub const NO_COMPARISON: u8 = 3;

/// A term, m × 2^k.
struct Term {
    negative: bool,
    m: u128,
    k: i64,
}

/// A number as a sign and m × 2^k in least numbers.
pub type Number = (bool, u64, i64);

/// The side of a result of the case.
pub fn leaning(case: &Case, result: u64) -> u8 {
    let shape = Shape::of(case.format);
    let denormals_are_zero = case.settings[5] == 1;
    let operand = |value: u64| {
        let (negative, m, k) = number(shape.decode(value))?;
        let is_subnormal = m < shape.least_normal();
        Some((negative, if denormals_are_zero && is_subnormal { 0 } else { m }, k))
    };
    side(case, operand, number(shape.decode(result)), shape.position_of_one())
}

/// The side of a result, by what an element counts for; none of either is a NaN, an infinity or no value at all.
pub fn side<V: Copy>(case: &Case<V>, operand: impl Fn(V) -> Option<Number>, result: Option<Number>, position_of_one: i64) -> u8 {
    // a product counts from the square of the least number, where the least number itself lies this far up: down, where it is the lesser of the two
    let grid = if case.is_product() { position_of_one } else { 0 };
    let (Some(mut terms), Some((negative, m, k))) = (terms(case, operand), result) else {
        return NO_COMPARISON;
    };
    terms.push(Term { negative: !negative, m: m.into(), k: k + grid });
    match sign_of(&terms) {
        0 => EQUAL,
        1 => BELOW,
        _ => ABOVE,
    }
}

/// A number as a sign and m × 2^k; none of a NaN or an infinity.
fn number(value: Decoded) -> Option<Number> {
    match value {
        Decoded::Number { negative, m, k } => Some((negative, m, k)),
        Decoded::Nan | Decoded::Infinity => None,
    }
}

/// The terms of a list of finite values; none of another list. A zero is a term of magnitude 0.
fn terms<V: Copy>(case: &Case<V>, operand: impl Fn(V) -> Option<Number>) -> Option<Vec<Term>> {
    let operand = |value: V| operand(value).map(|(negative, m, k)| (negative, u128::from(m), k));
    let of_one = |&value: &V| {
        let (negative, m, k) = operand(value)?;
        Some(match case.operation {
            Operation::Sum(0) => Term { negative, m, k },
            Operation::Sum(1) => Term { negative: false, m, k },
            _ => Term { negative: false, m: m * m, k: 2 * k },
        })
    };
    let of_pair = |(&x, &y): (&V, &V)| {
        let ((x_negative, x, i), (y_negative, y, k)) = (operand(x)?, operand(y)?);
        Some(Term { negative: x_negative != y_negative, m: x * y, k: i + k })
    };
    if case.is_dot() { case.left.iter().zip(&case.right).map(of_pair).collect() } else { case.left.iter().map(of_one).collect() }
}

/// The sign of a sum: 1, 0 or -1. It is a number in digits of 64 bits, most of which are not held: a carry that runs through
/// them leaves nothing behind it, or, being -1, every bit set.
fn sign_of(terms: &[Term]) -> i32 {
    let mut digits = BTreeMap::<i64, i128>::new();
    for term in terms {
        let (mut rest, at, shift) = (term.m, term.k.div_euclid(64), term.k.rem_euclid(64) as u32);
        // the lowest digit takes what is left of 64 bits above the shift
        let low = (rest as u64) << shift;
        rest >>= 64 - shift;
        for (i, digit) in [low, rest as u64, (rest >> 64) as u64].into_iter().enumerate() {
            let digit = i128::from(digit);
            *digits.entry(at + i as i64).or_default() += if term.negative { -digit } else { digit };
        }
    }
    let (mut carry, mut some, mut next) = (0i128, false, i64::MIN);
    for (at, digit) in digits {
        while carry > 0 && next < at {
            some |= carry as u64 != 0;
            carry >>= 64;
            next += 1;
        }
        some |= carry != 0 && next < at;
        let sum = digit + carry;
        some |= sum as u64 != 0;
        carry = sum >> 64;
        next = at + 1;
    }
    if carry < 0 { -1 } else { i32::from(some || carry > 0) }
}

#[cfg(test)]
mod tests {
    use super::{ABOVE, BELOW, EQUAL, NO_COMPARISON, Term, leaning, sign_of};
    use crate::case::{Case, Format, Operation};

    const BINARY16: Format = Format::plain([0, 5, 16]);
    const BINARY64: Format = Format::plain([0, 11, 64]);

    fn of(format: Format, operation: Operation, left: &[u64], right: &[u64], result: u64) -> u8 {
        let mut case = Case::new(format, [0; 8], operation);
        case.left = left.to_vec();
        case.right = right.to_vec();
        leaning(&case, result)
    }

    #[test]
    fn signs_of_sums() {
        let term = |value: i64, k: i64| Term { negative: value < 0, m: value.unsigned_abs().into(), k };
        for (terms, sign) in [
            (vec![], 0),
            (vec![term(1, 0), term(-1, 0)], 0),
            (vec![term(1, 1 << 40), term(-1, 0)], 1),
            (vec![term(-1, 1 << 40), term(1, 0)], -1),
            (vec![term(1, 1 << 40), term(-1, 0), term(-1, 1 << 40)], -1),
            (vec![term(1, 1 << 40), term(-1, 1 << 40), term(1, 3)], 1),
            (vec![term(1, 64), term(-2, 63)], 0),
            (vec![term(1, 130), term(-1, 129), term(-1, 129)], 0),
            (vec![term(i64::MAX, 200), term(1, 200), term(-1, 263)], 0),
            (vec![term(-1, 0), term(-1, 64), term(1, 128)], 1),
        ] {
            assert_eq!(sign_of(&terms), sign);
        }
        assert_eq!(sign_of(&[Term { negative: false, m: u128::MAX, k: 63 }, term(1, 63), term(-1, 191)]), 0);
    }

    #[test]
    fn sides_of_results() {
        let sum = |u: u64, left: &[u64], result: u64| of(BINARY16, Operation::Sum(u), left, &[], result);
        assert_eq!(sum(0, &[0x3c00, 0x1000], 0x3c01), ABOVE);
        assert_eq!(sum(0, &[0x3c00, 0x1000], 0x3c00), BELOW);
        assert_eq!(sum(0, &[0xbc00, 0x9000], 0xbc00), ABOVE);
        assert_eq!(sum(1, &[0xbc00, 0x3c00], 0x4000), EQUAL);
        assert_eq!(sum(2, &[0xbc00, 0x3c00], 0x4000), EQUAL);
        assert_eq!(sum(0, &[0xbc00, 0x3c00], 0x8000), EQUAL);
        assert_eq!(sum(0, &[0x7bff, 0x7bff], 0x7bff), BELOW);
        assert_eq!(sum(0, &[0x7bff, 0x7bff], 0x7c00), NO_COMPARISON);
        assert_eq!(sum(0, &[0x7c00], 0x7c00), NO_COMPARISON);
        assert_eq!(of(Format::plain([1, 4, 8]), Operation::Sum(0), &[0x7e, 0x7e], &[], 0x7f), NO_COMPARISON);
        assert_eq!(of(Format::plain([2, 4, 8]), Operation::Sum(0), &[0x38, 0xb8], &[], 0), EQUAL);
        let one = 1f64.to_bits();
        assert_eq!(of(BINARY64, Operation::Dot, &[one, 1], &[one, 1], one), BELOW);
        assert_eq!(of(BINARY64, Operation::Dot, &[one, 1], &[one, 1 << 63 | 1], one), ABOVE);
        assert_eq!(of(BINARY64, Operation::Dot, &[3f64.to_bits()], &[5f64.to_bits()], 15f64.to_bits()), EQUAL);
    }

    /// 1.5 × 2^n, of which the square is 2.25 × 2^2n.
    #[test]
    fn sides_in_formats_that_name_a_bias() {
        for bias in [0, 1, -1, 15, 40, -40, 2000, -2000, 1 << 27, -(1 << 27), 1 << 28] {
            let format = Format::biased([0, 28, 64], bias);
            let field = |n: i64| ((n + bias) as u64) << 35;
            // 0, or what lies nearest to it of emin and emax - 1
            let n = 0.max(1 - bias).min((1 << 28) - 3 - bias);
            let (root, square) = (field(n) | 1 << 34, field(2 * n + 1) | 1 << 32);
            assert_eq!(of(format, Operation::Sum(2), &[root], &[], square), EQUAL, "{bias}");
            assert_eq!(of(format, Operation::Dot, &[root], &[root], square + 1), ABOVE, "{bias}");
            assert_eq!(of(format, Operation::Dot, &[root], &[root], square - 1), BELOW, "{bias}");
            let beside = Format::biased(format.numbers, bias + 1);
            assert_eq!(of(beside, Operation::Sum(2), &[root], &[], square), ABOVE, "{bias}");
            // a sum is of numbers of one and the same unit, whatever that is
            assert_eq!(of(beside, Operation::Sum(0), &[root, root], &[], root + (1 << 35)), EQUAL, "{bias}");
        }
        // the least numbers are 2^-(2^28 + 1), 1/2, 1 and 2^(2^28 - 1)
        let least = |bias: i64| of(Format::biased([3, 2, 5], bias), Operation::Sum(2), &[1], &[], 1);
        assert_eq!([least(1 << 28), least(0), least(-1), least(-(1 << 28))], [ABOVE, ABOVE, EQUAL, BELOW]);
    }

    #[test]
    fn terms_are_taken_after_denormals_are_zero() {
        let mut case = Case::new(BINARY64, [0, 0, 0, 0, 0, 1, 0, 0], Operation::Sum(0));
        case.left = vec![1f64.to_bits(), 1];
        assert_eq!(leaning(&case, 1f64.to_bits()), EQUAL);
        case.settings[5] = 0;
        assert_eq!(leaning(&case, 1f64.to_bits()), BELOW);
    }
}
