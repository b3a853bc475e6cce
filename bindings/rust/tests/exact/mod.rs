//! What the sum of a list comes to in a target: added digit by digit, and rounded once. Formats,
//! zeros, tininess, overflow and flags are those of docs/SPECIFICATION.md. The passes of a sum are
//! not worked out.

use std::cmp::Ordering::{self, Equal, Greater, Less};

use fermuzhai::{Format, Kind, Rounding, Side, Target, Tininess};

use crate::numbers::{least, number, Number};

/// The exponent of the greatest number.
pub fn greatest(f: Format) -> i64 {
    let fields = (1 << f.exponent_bits) - if f.kind == Kind::Ieee { 2 } else { 1 };
    fields - f.bias()
}

/// The exact sum of a list of finite values, and what is told of it beside the sum.
#[derive(Clone, Debug)]
pub struct Exact {
    is_negative: bool,
    /// Of the magnitude, from the one worth 2^unit on. The last is a 1; there is none where the sum
    /// is 0.
    digits: Vec<bool>,
    unit: i64,
    has_terms: bool,
    has_subnormal: bool,
    /// Whether there is a zero of either sign, +0 first.
    zeros: [bool; 2],
}

/// The digits of a number with so many units, twos, fours and so on: in two's complement, and the
/// digit that goes on for ever.
fn carried(counts: &[i64], sign: i64) -> (Vec<bool>, bool) {
    let mut carry = 0;
    let mut digits = Vec::new();
    for place in 0..counts.len() + 64 {
        let total = carry + sign * counts.get(place).unwrap_or(&0);
        digits.push(total & 1 == 1);
        carry = total >> 1;
    }
    assert!(carry == 0 || carry == -1);
    (digits, carry == -1)
}

impl Exact {
    /// `None` of a list with a NaN or an infinity.
    pub fn of(f: Format, denormals_are_zero: bool, values: &[u64]) -> Option<Self> {
        let numbers: Option<Vec<Number>> = values.iter().map(|&value| number(f, value)).collect();
        let is_zero = |n: &Number| n.significand == 0 || (denormals_are_zero && n.is_subnormal);
        let (zeros, terms): (Vec<Number>, Vec<Number>) = numbers?.into_iter().partition(is_zero);
        let unit = terms.iter().map(|n| n.exponent).min().unwrap_or(0);
        let top = terms.iter().map(|n| n.exponent - unit).max().unwrap_or(0);
        let mut counts = vec![0; top as usize + 64];
        for n in &terms {
            for place in 0..64 {
                let digit = (n.significand >> place & 1) as i64;
                counts[(n.exponent - unit) as usize + place] +=
                    if n.is_negative { -digit } else { digit };
            }
        }
        let (_, is_negative) = carried(&counts, 1);
        let (mut digits, _) = carried(&counts, if is_negative { -1 } else { 1 });
        digits.truncate(digits.iter().rposition(|&digit| digit).map_or(0, |i| i + 1));
        Some(Self {
            is_negative,
            digits,
            unit,
            has_terms: !terms.is_empty(),
            has_subnormal: zeros.iter().chain(&terms).any(|n| n.is_subnormal),
            zeros: [false, true].map(|sign| zeros.iter().any(|n| n.is_negative == sign)),
        })
    }

    pub fn is_zero(&self) -> bool {
        self.digits.is_empty()
    }

    /// Whether some value is neither a zero nor counted as one.
    pub fn has_terms(&self) -> bool {
        self.has_terms
    }

    /// The position of the highest digit of a sum that is not 0.
    pub fn top(&self) -> i64 {
        self.unit + self.digits.len() as i64 - 1
    }

    /// The whole number of 2^place in the magnitude, and what is left beside half of one, if
    /// anything.
    fn cut(&self, place: i64) -> (u64, Option<Ordering>) {
        let digit =
            |at: i64| at >= self.unit && at <= self.top() && self.digits[(at - self.unit) as usize];
        let whole = (place..=self.top()).rev();
        let whole = whole.fold(0, |n, at| n << 1 | u64::from(digit(at)));
        let is_more = (self.unit..(place - 1).min(self.top() + 1)).any(digit);
        let left = match (digit(place - 1), is_more) {
            (false, false) => None,
            (false, true) => Some(Less),
            (true, false) => Some(Equal),
            (true, true) => Some(Greater),
        };
        (whole, left)
    }

    /// The same to the nearest one, by a rounding; whether it went up; and whether it is exact.
    fn rounded(&self, rounding: Rounding, place: i64) -> (u64, bool, bool) {
        let (whole, left) = self.cut(place);
        let is_up = match (rounding, left) {
            (_, None) | (Rounding::TowardZero, _) => false,
            (Rounding::TiesToEven, _) => {
                left == Some(Greater) || (left == Some(Equal) && whole % 2 == 1)
            }
            (Rounding::TiesToAway, _) => left != Some(Less),
            (Rounding::TiesTowardZero, _) => left == Some(Greater),
            (Rounding::TowardPositive, _) => !self.is_negative,
            (Rounding::TowardNegative, _) => self.is_negative,
            (Rounding::AwayFromZero, _) => true,
            (Rounding::ToOdd, _) => whole % 2 == 0,
            _ => unreachable!("a ninth rounding"),
        };
        (whole + u64::from(is_up), is_up, left.is_none())
    }

    /// The result, the flags and the side in a target.
    pub fn in_target(&self, target: Target) -> (u64, u8, Side) {
        let input = if self.has_subnormal { 0x80 } else { 0 };
        let (result, flags, side) = self.beside_input(target);
        (result, input | flags, side)
    }

    fn beside_input(&self, target: Target) -> (u64, u8, Side) {
        let (f, c) = (target.format, target.settings);
        let (least, greatest, digits) = (least(f), greatest(f), i64::from(f.digits()));
        let kept = c.precision.map_or(digits, |kept| kept.get().into());
        let zero = |is_negative| u64::from(is_negative && f.kind != Kind::Fnuz) << (f.width - 1);
        if self.is_zero() {
            let is_down = c.rounding == Rounding::TowardNegative;
            let is_negative = if self.has_terms {
                is_down
            } else {
                self.zeros[1] && (!self.zeros[0] || is_down)
            };
            return (zero(is_negative), 0, Side::Equal);
        }

        let (nearer, farther) = if self.is_negative {
            (Side::Above, Side::Below)
        } else {
            (Side::Below, Side::Above)
        };
        let top = self.top();
        let is_tiny = top < least
            && match c.tininess {
                Tininess::AfterRounding => {
                    let (n, ..) = self.rounded(c.rounding, top - kept + 1);
                    top + 1 < least || n < 1 << kept
                }
                _ => true,
            };
        if is_tiny && c.flush_to_zero {
            return (zero(self.is_negative), 0x38, nearer);
        }

        let place = top.max(least) - kept + 1;
        let (n, is_up, is_exact) = self.rounded(c.rounding, place);
        // the number with all digits of the format; below the least normal number the first of them
        // are zeros
        let highest = place + 63 - i64::from(n.leading_zeros());
        let field = (highest - least + 1).max(0);
        let unit = least + (field - 1).max(0) - digits + 1;
        let significand = if place >= unit {
            n << (place - unit)
        } else {
            n >> (unit - place)
        };
        let encoded = |field: i64, significand: u64| {
            let leading = u64::from(field != 0) << (digits - 1);
            let sign = u64::from(self.is_negative) << (f.width - 1);
            sign | (field as u64) << (digits - 1) | (significand - leading)
        };

        // where there is no infinity but a NaN with every bit set, this takes the place of the
        // greatest number with all digits
        let is_less = f.kind == Kind::NoInf && kept == digits;
        let most = (((1 << kept) - 1) << (digits - kept)) - u64::from(is_less);
        if highest > greatest || (highest == greatest && significand > most) {
            let field = greatest - least + 1;
            let is_beyond = match c.rounding {
                Rounding::TowardPositive => !self.is_negative,
                Rounding::TowardNegative => self.is_negative,
                Rounding::TowardZero | Rounding::ToOdd => false,
                _ => true,
            };
            let leading = 1 << (digits - 1);
            return match f.kind {
                Kind::Ieee if is_beyond && !c.saturate => {
                    (encoded(field + 1, leading), 0x54, Side::NoComparison)
                }
                Kind::NoInf if is_beyond && !c.saturate => {
                    (encoded(field, (1 << digits) - 1), 0x14, Side::NoComparison)
                }
                Kind::Fnuz if is_beyond && !c.saturate => {
                    (1 << (f.width - 1), 0x14, Side::NoComparison)
                }
                _ => (encoded(field, most), 0x14, nearer),
            };
        }
        let result = if n == 0 {
            zero(self.is_negative)
        } else {
            encoded(field, significand)
        };
        let mut flags = 0;
        let mut raise = |holds: bool, flag: u8| flags |= if holds { flag } else { 0 };
        raise(is_tiny, 0x20);
        raise(!is_exact, 0x10);
        raise(is_tiny && !is_exact, 0x08);
        raise(is_up, 0x40);
        let side = match (is_exact, is_up) {
            (true, _) => Side::Equal,
            (false, true) => farther,
            (false, false) => nearer,
        };
        (result, flags, side)
    }
}
