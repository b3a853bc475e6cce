use core::fmt::{self, Debug, Display, Formatter};
use core::hash::{Hash, Hasher};
use core::ops::{BitAnd, BitOr, BitOrAssign};

use crate::Value;

/// What happened on the way to a result. The exact rules stand in `docs/SPECIFICATION.md` of the
/// repository.
///
/// ```
/// use fermuzhai::{sum, Flags};
///
/// let record = sum(&[f64::MAX, f64::MAX])?;
/// assert!(record.flags.contains(Flags::OVERFLOW));
/// assert_eq!(record.flags.to_string(), "OVERFLOW | INEXACT | ROUNDED_UP");
/// # Ok::<(), fermuzhai::Refusal>(())
/// ```
#[derive(Clone, Copy, Default, PartialEq, Eq, Hash)]
pub struct Flags(u8);

impl Flags {
    /// No flag.
    pub const NONE: Self = Self(0);
    /// A signaling NaN, infinities of both signs, an infinity times zero, or an
    /// [`X87`](crate::X87) that is unsupported.
    pub const INVALID: Self = Self(1);
    /// The sum is too large for the format.
    pub const OVERFLOW: Self = Self(4);
    /// The sum is tiny, and the result is not exact.
    pub const UNDERFLOW: Self = Self(8);
    /// The result is not the exact sum.
    pub const INEXACT: Self = Self(16);
    /// The sum is not zero and lies below the least normal number, by the rule of
    /// [`Tininess`](crate::Tininess).
    pub const TINY: Self = Self(32);
    /// The result is not zero, and its magnitude is above that of the exact sum.
    pub const ROUNDED_UP: Self = Self(64);
    /// A value of the list is subnormal.
    pub const SUBNORMAL_INPUT: Self = Self(128);

    const NAMES: [(Self, &'static str); 7] = [
        (Self::INVALID, "INVALID"),
        (Self::OVERFLOW, "OVERFLOW"),
        (Self::UNDERFLOW, "UNDERFLOW"),
        (Self::INEXACT, "INEXACT"),
        (Self::TINY, "TINY"),
        (Self::ROUNDED_UP, "ROUNDED_UP"),
        (Self::SUBNORMAL_INPUT, "SUBNORMAL_INPUT"),
    ];

    /// The flags of a flag byte.
    #[must_use]
    pub const fn from_bits(bits: u8) -> Self {
        Self(bits)
    }

    /// The flag byte.
    #[must_use]
    pub const fn bits(self) -> u8 {
        self.0
    }

    /// Whether every flag of `other` is set here.
    #[must_use]
    pub const fn contains(self, other: Self) -> bool {
        self.0 & other.0 == other.0
    }

    /// Whether some flag of `other` is set here.
    ///
    /// ```
    /// use fermuzhai::{sum, Flags};
    ///
    /// let range = Flags::OVERFLOW | Flags::UNDERFLOW;
    /// assert!(sum(&[f64::MAX, f64::MAX])?.flags.intersects(range));
    /// assert!(!sum(&[0.1, 0.2])?.flags.intersects(range));
    /// # Ok::<(), fermuzhai::Refusal>(())
    /// ```
    #[must_use]
    pub const fn intersects(self, other: Self) -> bool {
        self.0 & other.0 != 0
    }

    /// Whether no flag is set.
    #[must_use]
    pub const fn is_empty(self) -> bool {
        self.0 == 0
    }
}

impl BitOr for Flags {
    type Output = Self;

    fn bitor(self, other: Self) -> Self {
        Self(self.0 | other.0)
    }
}

/// Gathers the flags of several totals.
///
/// ```
/// use fermuzhai::{sum, Flags};
///
/// let mut seen = Flags::NONE;
/// for list in [[1.0, 2.0], [0.1, 0.2]] {
///     seen |= sum(&list)?.flags;
/// }
/// assert_eq!(seen, Flags::INEXACT | Flags::ROUNDED_UP);
/// # Ok::<(), fermuzhai::Refusal>(())
/// ```
impl BitOrAssign for Flags {
    fn bitor_assign(&mut self, other: Self) {
        *self = *self | other;
    }
}

impl BitAnd for Flags {
    type Output = Self;

    fn bitand(self, other: Self) -> Self {
        Self(self.0 & other.0)
    }
}

/// The names, as in `INEXACT | ROUNDED_UP`, or `NONE`.
impl Display for Flags {
    fn fmt(&self, out: &mut Formatter<'_>) -> fmt::Result {
        let mut written = Self::NONE;
        for (flag, name) in Self::NAMES {
            if self.contains(flag) {
                if !written.is_empty() {
                    out.write_str(" | ")?;
                }
                out.write_str(name)?;
                written |= flag;
            }
        }
        if written.is_empty() {
            out.write_str("NONE")?;
        }
        Ok(())
    }
}

impl Debug for Flags {
    fn fmt(&self, out: &mut Formatter<'_>) -> fmt::Result {
        write!(out, "Flags({self})")
    }
}

/// Which way a result leans: where it lies beside the exact sum of the terms, as numbers.
///
/// ```
/// use fermuzhai::{sum, Side};
///
/// assert_eq!(sum(&[0.5, 0.25])?.side, Side::Equal);
/// assert_eq!(sum(&[0.1, 0.2])?.side, Side::Above);
/// assert_eq!(sum(&[-0.1, -0.2])?.side, Side::Below);
/// assert_eq!(sum(&[f64::MAX, f64::MAX])?.side, Side::NoComparison);
/// # Ok::<(), fermuzhai::Refusal>(())
/// ```
#[derive(Clone, Copy, Debug, PartialEq, Eq, Hash)]
pub enum Side {
    /// The result is the exact sum.
    Equal = 0,
    /// The result is less than the exact sum.
    Below = 1,
    /// The result is greater than the exact sum.
    Above = 2,
    /// There is nothing to compare: the result is an infinity, or a NaN.
    NoComparison = 3,
}

impl Side {
    /// The side of an answer's byte.
    pub(crate) const fn from_byte(byte: u8) -> Self {
        match byte {
            0 => Self::Equal,
            1 => Self::Below,
            2 => Self::Above,
            _ => Self::NoComparison,
        }
    }
}

/// An accepted total: the result with its flags, the passes that it took, and which way it leans.
///
/// It is shown as `result, flags FLAGS, passes N`: a float in decimal, by the precision that is
/// asked for; an encoding, and an [`X87`](crate::X87), in hexadecimal.
///
/// ```
/// use fermuzhai::{sum, Format, Totals};
///
/// let record = sum(&[0.1, 0.2])?;
/// assert_eq!(record.to_string(), "0.30000000000000004, flags INEXACT | ROUNDED_UP, passes 1");
/// assert_eq!(format!("{record:.2}"), "0.30, flags INEXACT | ROUNDED_UP, passes 1");
/// let record = Totals::of(Format::BINARY16).sum(&[0x3c00, 0x3800])?;
/// assert_eq!(record.to_string(), "0x3e00, flags NONE, passes 1");
/// # Ok::<(), fermuzhai::Refusal>(())
/// ```
///
/// Two records are equal where every field is, results by their encodings: so −0 is not +0, and a
/// NaN equals itself.
///
/// The library's record has one field more, the last edge, which of its byte entries those within
/// an allowance alone hand out: [`raw::sum_within`](crate::raw::sum_within) and
/// [`raw::dot_within`](crate::raw::dot_within).
#[derive(Clone, Copy, Debug)]
#[non_exhaustive]
#[must_use = "the total is in it, and its flags"]
pub struct Record<T> {
    /// The exact sum, rounded once: a float, or an encoding where the list was of encodings, and of
    /// a [`Target`](crate::Target).
    pub result: T,
    /// What happened on the way.
    pub flags: Flags,
    /// The passes that the sum took, as `docs/SPECIFICATION.md` of the repository counts them.
    pub passes: u64,
    /// Where the result lies beside the exact sum.
    pub side: Side,
}

impl<T: Value> PartialEq for Record<T> {
    fn eq(&self, other: &Self) -> bool {
        self.result.encoding() == other.result.encoding()
            && self.flags == other.flags
            && self.passes == other.passes
            && self.side == other.side
    }
}

impl<T: Value> Eq for Record<T> {}

impl<T: Value> Display for Record<T> {
    fn fmt(&self, out: &mut Formatter<'_>) -> fmt::Result {
        self.result.show(out)?;
        write!(out, ", flags {}, passes {}", self.flags, self.passes)
    }
}

impl<T: Value> Hash for Record<T> {
    fn hash<H: Hasher>(&self, state: &mut H) {
        let Self {
            flags,
            passes,
            side,
            ..
        } = self;
        (self.result.encoding(), flags, passes, side).hash(state);
    }
}

/// The compiler warns of a record that is not looked at, and of nothing else here.
///
/// ```compile_fail
/// #![deny(unused_must_use)]
/// fermuzhai::sum(&[1.0]).unwrap();
/// ```
///
/// ```
/// #![deny(unused_must_use)]
/// let _ = fermuzhai::sum(&[1.0]).unwrap();
/// ```
#[cfg(doctest)]
struct Unseen;

#[cfg(test)]
mod tests {
    use super::*;

    #[test]
    fn flags_by_name() {
        assert_eq!(format!("{}", Flags::NONE), "NONE");
        assert_eq!(
            format!("{}", Flags::from_bits(0x38)),
            "UNDERFLOW | INEXACT | TINY"
        );
        assert_eq!(
            format!("{:?}", Flags::SUBNORMAL_INPUT | Flags::TINY),
            "Flags(TINY | SUBNORMAL_INPUT)"
        );
    }

    #[test]
    fn flags_together() {
        let mut seen = Flags::INEXACT;
        seen |= Flags::NONE;
        assert_eq!(seen, Flags::INEXACT);
        seen |= Flags::TINY;
        assert_eq!(seen.bits(), 48);
        assert!(seen.intersects(Flags::TINY | Flags::INVALID));
        assert!(!seen.contains(Flags::TINY | Flags::INVALID));
        assert!(!seen.intersects(Flags::INVALID));
        assert!(!seen.intersects(Flags::NONE) && seen.contains(Flags::NONE));
    }

    #[test]
    fn every_flag_has_a_bit_of_its_own() {
        let mut all = Flags::NONE;
        for (flag, _) in Flags::NAMES {
            assert!((all & flag).is_empty());
            assert_eq!(flag.bits().count_ones(), 1);
            all |= flag;
        }
        assert_eq!(all.bits(), 0xfd);
    }

    #[test]
    fn records_are_compared_by_encoding() {
        let of = |result: f64| Record {
            result,
            flags: Flags::NONE,
            passes: 1,
            side: Side::Equal,
        };
        assert_eq!(of(f64::NAN), of(f64::NAN));
        assert_ne!(of(0.0), of(-0.0));
        assert_ne!(
            of(1.0),
            Record {
                passes: 2,
                ..of(1.0)
            }
        );
        assert_ne!(
            of(1.0),
            Record {
                flags: Flags::TINY,
                ..of(1.0)
            }
        );
        assert_ne!(
            of(1.0),
            Record {
                side: Side::Below,
                ..of(1.0)
            }
        );
    }

    #[test]
    fn every_side_has_its_byte() {
        for side in [Side::Equal, Side::Below, Side::Above, Side::NoComparison] {
            assert_eq!(Side::from_byte(side as u8), side);
        }
    }
}
