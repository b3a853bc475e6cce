//! Values of ten bytes (kind 4): their encodings, and what is expected of a call with them.

use crate::case::{Case, Format, Operation};
use crate::check::{Answer, Oracle, Seen, Value};
use crate::leaning::{Number, side};
use crate::refusals::{Expected, refused_by_bytes};
use crate::shape::Encodings;
use crate::tally::Tally;

pub const FORMAT: Format = Format::plain([4, 15, 80]);

pub const DIGITS: u32 = 64;

pub const SIGN: u128 = 1 << 79;
pub const LEADING: u64 = 1 << 63;
/// The exponent field of infinities and NaNs.
pub const TOP_FIELD: u64 = 0x7fff;

/// A field over a significand, without a sign.
pub fn fields(field: u64, significand: u64) -> u128 {
    u128::from(field) << 64 | u128::from(significand)
}

fn field(value: u128) -> u64 {
    (value >> 64) as u64 & TOP_FIELD
}

/// The encodings of kind 4. The leading bit of a significand is written out.
#[derive(Clone, Copy)]
pub struct Extended;

impl Encodings for Extended {
    type Value = u128;

    fn digits(&self) -> u32 {
        DIGITS
    }

    fn highest_position(&self) -> i64 {
        62 + TOP_FIELD as i64 - 1
    }

    fn position_of_one(&self) -> i64 {
        62 + 16383
    }

    fn encode(&self, m: u64, k: i64) -> Option<u128> {
        let shift = i64::from(m.leading_zeros()).min(k);
        let (m, k) = (m << shift, k - shift);
        let field = if m < LEADING { 0 } else { k as u64 + 1 };
        (field < TOP_FIELD).then(|| fields(field, m))
    }

    fn signed(&self, negative: bool, magnitude: u128) -> u128 {
        if negative { magnitude | SIGN } else { magnitude }
    }
}

/// A field above 0 over a leading bit of 0.
pub fn is_unsupported(value: u128) -> bool {
    field(value) != 0 && (value as u64) < LEADING
}

/// A leading bit below a field of 0.
pub fn is_pseudo_denormal(value: u128) -> bool {
    field(value) == 0 && value as u64 >= LEADING
}

fn is_nan(value: u128) -> bool {
    field(value) == TOP_FIELD && value as u64 > LEADING
}

/// None of a NaN, of an infinity and of an unsupported encoding.
pub fn number(value: u128) -> Option<Number> {
    let field = field(value);
    (field != TOP_FIELD && !is_unsupported(value)).then(|| (value & SIGN != 0, value as u64, field.max(1) as i64 - 1))
}

fn leaning(case: &Case<u128>, result: u128) -> u8 {
    let operand = |value: u128| {
        let (negative, m, k) = number(value)?;
        Some((negative, if case.settings[5] == 1 && field(value) == 0 { 0 } else { m }, k))
    };
    side(case, operand, number(result), Extended.position_of_one())
}

/// 4: a setting or the summand is too large.
fn out_of_range(case: &Case<u128>) -> bool {
    let highest = [7, 1, 3, 1, 1, 1, 1, u64::from(DIGITS)];
    let setting = case.settings.iter().zip(highest).any(|(&value, high)| value > high);
    setting || matches!(case.operation, Operation::Sum(summand) if summand > 2)
}

impl Value for u128 {
    const SIZE: usize = 10;
    const ANSWER: usize = 32;

    fn bytes(self) -> [u8; 16] {
        self.to_le_bytes()
    }

    /// Of cases that are drawn here: no other kind has a W of 80.
    fn expected(case: &Case<u128>) -> Expected {
        if let Some(number) = refused_by_bytes(case) {
            return Expected::Refused(number);
        }
        if case.format != FORMAT {
            return Expected::Refused(3);
        }
        if out_of_range(case) {
            return Expected::Refused(4);
        }
        if case.is_dot() && case.left.len() != case.right.len() {
            return Expected::Refused(5);
        }
        Expected::Accepted
    }

    /// Every bit is in use.
    fn is_stray(self, _: u64) -> bool {
        false
    }

    fn total(oracle: &Oracle, case: &Case<u128>) -> Answer<u128> {
        (oracle.extended)(case)
    }

    fn read_answer(case: &Case<u128>, written: &[u8]) -> Result<(Answer<u128>, u8), String> {
        if written[12..24] != [0; 12] {
            return Err(format!("bytes 12 to 23 of the answer are {:?}", &written[12..24]));
        }
        let number = |bytes: &[u8]| bytes.iter().rev().fold(0, |number, &byte| number << 8 | u128::from(byte));
        let answer = Answer { result: number(&written[..10]), flags: written[10], passes: number(&written[24..]) as u64 };
        let (side, wanted) = (written[11], leaning(case, answer.result));
        if side != wanted {
            return Err(format!("side {side} of {answer:x?}, and by the exact sum it is {wanted}"));
        }
        Ok((answer, side))
    }

    /// An unsupported encoding gives the default NaN, whichever NaNs stand beside it.
    fn has_any_order(case: &Case<u128>) -> bool {
        let some = |test: fn(u128) -> bool| case.left.iter().chain(&case.right).any(|&value| test(value));
        some(is_unsupported) || !some(is_nan)
    }

    fn count(case: &Case<u128>, seen: &Seen, tally: &mut Tally) {
        tally.add_tens(case, seen);
    }
}

#[cfg(test)]
mod tests {
    use super::{Extended, FORMAT, is_pseudo_denormal, is_unsupported, leaning, number};
    use crate::case::{Case, Operation};
    use crate::leaning::{ABOVE, BELOW, EQUAL, NO_COMPARISON};
    use crate::shape::Encodings;

    const ONE: u128 = 0x3fff_8000_0000_0000_0000;
    const LARGEST: u128 = 0x7ffe_ffff_ffff_ffff_ffff;

    #[test]
    fn encodings() {
        assert_eq!(Extended.encode(1, Extended.position_of_one()), Some(ONE));
        assert_eq!(Extended.encode(u64::MAX, Extended.highest_position() - 63), Some(LARGEST));
        assert_eq!(Extended.encode(1, Extended.highest_position() + 1), None);
        assert_eq!([Extended.encode(5, 0), Extended.encode(1, 63), Extended.encode(1, 62)], [Some(5), Some(0x1_8000_0000_0000_0000), Some(1 << 62)]);
        assert_eq!(number(0x8000_8000_0000_0000_0000), Some((true, 1 << 63, 0)));
        assert_eq!(number(ONE), Some((false, 1 << 63, 16382)));
        let nothing = [0x7fff_8000_0000_0000_0000, 0x7fff_8000_0000_0000_0001, 0x3fff_7fff_ffff_ffff_ffff, 0x7fff_0000_0000_0000_0000];
        assert_eq!(nothing.map(number), [None; 4]);
        assert_eq!(nothing.map(is_unsupported), [false, false, true, true]);
        assert!(is_pseudo_denormal(1 << 63) && !is_pseudo_denormal(1 << 62) && !is_pseudo_denormal(ONE));
    }

    #[test]
    fn sides() {
        let of = |operation, left: &[u128], right: &[u128], daz, result| {
            let mut case = Case::new(FORMAT, [0, 0, 0, 0, 0, daz, 0, 0], operation);
            (case.left, case.right) = (left.to_vec(), right.to_vec());
            leaning(&case, result)
        };
        assert_eq!(of(Operation::Sum(0), &[ONE, 1], &[], 0, ONE), BELOW);
        assert_eq!(of(Operation::Sum(0), &[ONE, 1 << 63], &[], 1, ONE), EQUAL);
        assert_eq!(of(Operation::Dot, &[ONE, 1], &[ONE, 1 | 1 << 79], 0, ONE), ABOVE);
        assert_eq!(of(Operation::Sum(2), &[ONE, ONE], &[], 0, ONE + (1 << 64)), EQUAL);
        assert_eq!(of(Operation::Sum(0), &[LARGEST, LARGEST], &[], 0, LARGEST + 1), NO_COMPARISON);
    }
}
