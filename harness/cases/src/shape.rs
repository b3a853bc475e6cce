//! The encodings of a format, as the lists need them.
//!
//! Encodings without their sign are ordered as the magnitudes are, so a neighbour is one more or one less. Positions count from the lowest bit
//! of the format's least number: its fraction bits are positions 0 to `fraction` - 1 of a subnormal.

use crate::case::Format;

#[derive(Clone, Copy, Debug)]
pub struct Shape {
    pub format: Format,
    /// Fraction bits.
    pub fraction: u32,
    /// Digits, p.
    pub digits: u32,
    /// The sign bit.
    pub sign: u64,
    /// The largest finite magnitude.
    pub largest: u64,
}

/// What lists that are built from their terms need to know of a format.
pub trait Encodings {
    type Value: Copy;

    /// Digits, p; one more than the fraction bits.
    fn digits(&self) -> u32;

    /// The position of the highest bit of the largest number.
    fn highest_position(&self) -> i64;

    /// The position of 1: below 0, or above every number's, where a bias is named by which 1 is no number of the format.
    fn position_of_one(&self) -> i64;

    /// The magnitude of m × 2^k in least numbers, for m of 1 to p bits and k from 0 up, if the format has it.
    fn encode(&self, m: u64, k: i64) -> Option<Self::Value>;

    fn signed(&self, negative: bool, magnitude: Self::Value) -> Self::Value;
}

/// What an encoding stands for: a number m × 2^k counts in least numbers, and a zero is one of m = 0.
#[derive(Clone, Copy, Debug, PartialEq, Eq)]
pub enum Decoded {
    Nan,
    Infinity,
    Number { negative: bool, m: u64, k: i64 },
}

fn low_bits(n: u32) -> u64 {
    if n == 64 { u64::MAX } else { (1 << n) - 1 }
}

impl Shape {
    pub fn of(format: Format) -> Self {
        let [kind, e, w] = format.numbers.map(|n| n as u32);
        let fraction = w - e - 1;
        let sign = 1 << (w - 1);
        let largest = match kind {
            // the highest exponent field is for the infinities and NaNs
            0 => (low_bits(e) << fraction) - 1,
            // all ones is the NaN
            1 => sign - 2,
            _ => sign - 1,
        };
        Self { format, fraction, digits: w - e, sign, largest }
    }

    pub fn kind(&self) -> u64 {
        self.format.numbers[0]
    }

    pub fn least_normal(&self) -> u64 {
        1 << self.fraction
    }

    /// The exponent field of a magnitude.
    pub fn field(&self, magnitude: u64) -> i64 {
        (magnitude >> self.fraction) as i64
    }

    pub fn highest_field(&self) -> i64 {
        self.field(self.largest)
    }

    pub fn is_nan(&self, value: u64) -> bool {
        let magnitude = value & (self.sign - 1);
        match self.kind() {
            0 => magnitude > self.largest + 1,
            1 => magnitude == self.sign - 1,
            2 => value == self.sign,
            _ => false,
        }
    }

    pub fn decode(&self, value: u64) -> Decoded {
        let magnitude = value & (self.sign - 1);
        if self.is_nan(value) {
            return Decoded::Nan;
        }
        if magnitude > self.largest {
            return Decoded::Infinity;
        }
        let negative = value & self.sign != 0;
        let fraction = magnitude & low_bits(self.fraction);
        match self.field(magnitude) {
            0 => Decoded::Number { negative, m: fraction, k: 0 },
            field => Decoded::Number { negative, m: self.least_normal() | fraction, k: field - 1 },
        }
    }

    /// A NaN or an infinity, or a zero where the format has neither. `choice` is any number.
    pub fn special(&self, choice: u64) -> u64 {
        let sign = if choice & 1 == 1 { self.sign } else { 0 };
        let infinity = self.largest + 1;
        match (self.kind(), choice >> 1 & 3) {
            (0, 0 | 1) => sign | infinity,
            (0, 2) => sign | infinity | 1 << (self.fraction - 1) | choice >> 8 & low_bits(self.fraction - 1),
            // a signaling NaN has the highest fraction bit clear and another set, where there is another
            (0, _) => sign | infinity | (choice >> 8 & low_bits(self.fraction - 1)).max(1),
            (1, _) => sign | self.sign - 1,
            (2, _) => self.sign,
            // of this kind every encoding is finite; a zero does not lie far from any list's values
            _ => sign,
        }
    }
}

impl Encodings for Shape {
    type Value = u64;

    fn digits(&self) -> u32 {
        self.digits
    }

    fn highest_position(&self) -> i64 {
        i64::from(self.fraction) + self.highest_field() - 1
    }

    fn position_of_one(&self) -> i64 {
        self.format.bias_or_own() + i64::from(self.fraction) - 1
    }

    fn encode(&self, m: u64, k: i64) -> Option<u64> {
        let length = 64 - m.leading_zeros();
        let shift = i64::from(self.digits - length).min(k);
        let (m, k) = (m << shift, k - shift);
        let field = if m >> self.fraction == 0 { 0 } else { k + 1 };
        if field > self.highest_field() {
            return None;
        }
        let magnitude = (field as u64) << self.fraction | m & low_bits(self.fraction);
        (magnitude <= self.largest).then_some(magnitude)
    }

    fn signed(&self, negative: bool, magnitude: u64) -> u64 {
        if negative { magnitude | self.sign } else { magnitude }
    }
}

#[cfg(test)]
mod tests {
    use super::{Decoded, Encodings, Shape};
    use crate::case::Format;

    fn shape(numbers: [u64; 3]) -> Shape {
        Shape::of(Format::plain(numbers))
    }

    #[test]
    fn binary64() {
        let shape = shape([0, 11, 64]);
        assert_eq!(shape.largest, f64::MAX.to_bits());
        assert_eq!(shape.encode(1, shape.position_of_one()), Some(1f64.to_bits()));
        assert_eq!(shape.encode(3, shape.position_of_one() - 1), Some(1.5f64.to_bits()));
        assert_eq!(shape.encode(5, 0), Some(5));
        assert_eq!(shape.encode(1, 52), Some(f64::MIN_POSITIVE.to_bits()));
        assert_eq!(shape.encode(1, shape.highest_position() + 1), None);
        assert!(shape.is_nan(f64::NAN.to_bits()) && !shape.is_nan(f64::INFINITY.to_bits()));
        assert_eq!(shape.decode(f64::NAN.to_bits()), Decoded::Nan);
        assert_eq!(shape.decode(f64::NEG_INFINITY.to_bits()), Decoded::Infinity);
        assert_eq!(shape.decode((-1.5f64).to_bits()), Decoded::Number { negative: true, m: 3 << 51, k: shape.position_of_one() - 52 });
        assert_eq!(shape.decode(5), Decoded::Number { negative: false, m: 5, k: 0 });
    }

    #[test]
    fn kinds_without_infinities() {
        // E 4, W 8: largest 448 with its NaN beside it, and 240 where the NaN is the negative zero
        assert_eq!(shape([1, 4, 8]).largest, 0x7e);
        assert_eq!(shape([2, 4, 8]).largest, 0x7f);
        assert_eq!(shape([2, 4, 8]).encode(1, shape([2, 4, 8]).position_of_one()), Some(0x40));
        assert!(shape([1, 4, 8]).is_nan(0xff) && shape([2, 4, 8]).is_nan(0x80) && !shape([3, 4, 8]).is_nan(0xff));
    }
}
