use core::error::Error;
use core::fmt::{self, Display, Formatter};

use crate::{Format, Settings};

/// One of the two lists of a dot product.
#[derive(Clone, Copy, Debug, PartialEq, Eq, Hash)]
pub enum List {
    /// The first.
    Left,
    /// The second.
    Right,
}

/// ` of the left list`; nothing where there is one list, or it is not known which.
struct OfList(Option<List>);

impl Display for OfList {
    fn fmt(&self, out: &mut Formatter<'_>) -> fmt::Result {
        out.write_str(match self.0 {
            Some(List::Left) => " of the left list",
            Some(List::Right) => " of the right list",
            None => "",
        })
    }
}

/// Why a total was not taken, or a page not written. Where several reasons hold, the first in this
/// order is given, but that of a table 9 and 10 come before 7, of a page 12 and 13 before 4, within
/// an allowance 16 before 3, and of a contribution 15 before 14. The numbers and their conditions
/// stand in `docs/SPECIFICATION.md` of the repository.
///
/// Proved: `sum-refusal`, `dot-refusal`, `extended-call-refused-exactly`,
/// `sum-pence-refused-exactly`, `table-refused-exactly`, `range-refused-exactly`,
/// `page-refused-exactly`, `page-span-refused-exactly` in
/// `crates/totals_spec/proofs` and `crates/figures_spec/proofs` and `crates/pages_spec/proofs`; `target-refusal`, `within-refusal`,
/// `contribution-refusal` in `crates/targets_spec/proofs`.
///
/// ```
/// use fermuzhai::{dot, Refusal};
///
/// let refusal = dot(&[1.0, 2.0], &[3.0]).unwrap_err();
/// assert_eq!(refusal, Refusal::DifferentLengths);
/// assert_eq!(
///     refusal.to_string(),
///     "the lists differ in length: they must have the same number of elements"
/// );
/// ```
#[derive(Clone, Copy, Debug, PartialEq, Eq, Hash)]
#[non_exhaustive]
pub enum Refusal {
    /// 1: a list of bytes whose length is not a multiple of 8, or, of [`X87`](crate::X87), of 10.
    /// Through [`raw`](crate::raw) also targets that are not 312 bytes.
    UnevenLength {
        /// Which list of a dot, the left one where both are; `None` in a sum, and from
        /// [`Refusal::from_code`].
        list: Option<List>,
    },
    /// 2: a destination that is shorter than the page would be. Through [`raw`](crate::raw) also an
    /// answer buffer under 24 bytes, of [`X87`](crate::X87) under 32, of three targets under 96,
    /// within an allowance under 144, of a contribution under eight, or of a range a pair under two
    /// words.
    ShortBuffer,
    /// 3: the library has no such format, or the format names a bias outside −268,435,456 to
    /// 268,435,456; or it is [`Format::EXTENDED`](crate::Format::EXTENDED), of encodings in words.
    /// Of a contribution also any format that is not of [`Kind::Ieee`](crate::Kind::Ieee).
    NoSuchFormat,
    /// 4: a precision above the format's digits.
    PrecisionOutOfRange {
        /// The precision.
        precision: u8,
        /// The most that it can be.
        digits: u8,
    },
    /// 4: a setting or the summand out of its range. Of a contribution that is flush to zero or
    /// denormals-are-zero where it is on, beside a precision that the format has. Any other comes
    /// only through [`raw`](crate::raw), whose numbers can say what the types of this crate cannot.
    SettingOutOfRange,
    /// 5: the two lists of a dot have different lengths; or the three of a range, through
    /// [`raw`](crate::raw).
    DifferentLengths,
    /// 6: over 268,435,456 elements (of a dot: pairs; of a table: cells; of a range: entries; of a
    /// page that is written: values). Of a contribution the number that it adds to the list is one
    /// of them.
    TooManyElements,
    /// 7: an element is 2 to the power of the format's width, or more.
    StrayBit {
        /// The index of the first such element; a dot looks into its left list first. Of a
        /// contribution the length of the list where there is none in it, and the wanted total is
        /// one.
        place: usize,
        /// Which list of a dot it stands in, the left one where both hold one; `None` in a sum and
        /// in a table, and from [`Refusal::from_code`].
        list: Option<List>,
    },
    /// 8: the sum of the list has no figure in pence. A value is a NaN or an infinity, or the
    /// magnitude of the figure is 2^63 or more; −2^63 is refused too, though an `i64` could hold
    /// it.
    NoPence,
    /// 9: rows times columns, as whole numbers, is not the number of cells.
    BadShape,
    /// 10: there are fewer places for the totals of a table than it has rows, or fewer than it has
    /// columns.
    NoRoom,
    /// 11: of a range, a figure that an entry uses is not finite, or a low is above its high; or
    /// the ceiling is not finite or below zero, even where no entry is missing. Through
    /// [`raw`](crate::raw) also a tag above 2. It has no place.
    BadAmount,
    /// 12: the bytes are not the page of the values that they hold, or the page counts more than
    /// 268,435,456 of them.
    NotAPage,
    /// 13: a span of a page starts above its end, or ends above the page's count of values.
    BadSpan,
    /// 14: no finite number of the format, behind the list, makes its sum the wanted total.
    NoContribution,
    /// 15: of a contribution, a NaN or an infinity in the list, or for the wanted total. It has no
    /// place.
    NotFinite,
    /// 16: an allowance of no pass.
    NoPassAllowed,
    /// 17: of a target, more digits than the list's format has; or a NaN or an infinity in the
    /// list, and then of every target. It has no place.
    TargetOutOfReach,
    /// A code that this crate does not know: the archive is not the one that it was written for.
    Unknown {
        /// What the entry returned.
        code: u64,
    },
}

impl Refusal {
    /// Reads what an entry of [`raw`](crate::raw) returned; `None` is an accepted call. A code does
    /// not say which setting or which list it is about.
    ///
    /// ```
    /// use fermuzhai::Refusal;
    ///
    /// assert_eq!(Refusal::from_code(0), None);
    /// let stray = Refusal::StrayBit { place: 3, list: None };
    /// assert_eq!(Refusal::from_code(7 + 256 * 3), Some(stray));
    /// ```
    #[must_use]
    pub const fn from_code(code: u64) -> Option<Self> {
        Some(match code {
            0 => return None,
            1 => Self::UnevenLength { list: None },
            2 => Self::ShortBuffer,
            3 => Self::NoSuchFormat,
            4 => Self::SettingOutOfRange,
            5 => Self::DifferentLengths,
            6 => Self::TooManyElements,
            8 => Self::NoPence,
            9 => Self::BadShape,
            10 => Self::NoRoom,
            11 => Self::BadAmount,
            12 => Self::NotAPage,
            13 => Self::BadSpan,
            14 => Self::NoContribution,
            15 => Self::NotFinite,
            16 => Self::NoPassAllowed,
            17 => Self::TargetOutOfReach,
            _ if code % 256 == 7 => Self::StrayBit {
                place: (code / 256) as usize,
                list: None,
            },
            _ => Self::Unknown { code },
        })
    }

    /// Says which setting is out of its range. In the types of this crate that can be the precision
    /// alone, but of a contribution also a switch.
    pub(crate) fn with_setting(self, format: Format, settings: Settings) -> Self {
        let (precision, digits) = (settings.precision, format.digits());
        match (self, precision.map(|precision| precision.get())) {
            (Self::SettingOutOfRange, Some(precision)) if precision > digits => {
                Self::PrecisionOutOfRange { precision, digits }
            }
            _ => self,
        }
    }
}

impl Display for Refusal {
    fn fmt(&self, out: &mut Formatter<'_>) -> fmt::Result {
        match self {
            Self::UnevenLength { list } => write!(
                out,
                "the length{} in bytes is not that of whole values: each takes 8 bytes, one of \
                 X87 10, and three targets take 312",
                OfList(*list)
            ),
            Self::ShortBuffer => out.write_str(
                "the buffer is too short: an answer takes 24 bytes, one of X87 32, of three \
                 targets 96, within an allowance 144, a contribution 8, the pair of a range two \
                 words, and a page what Page::length_of says",
            ),
            Self::NoSuchFormat => out.write_str(
                "the call has no such format: exponent bits are 2 to 28, the width these + 2 to \
                 64, a named bias within 268,435,456 of 0; X87 is for totals of ten-byte values, \
                 and a contribution is for the kind IEEE",
            ),
            Self::PrecisionOutOfRange { precision, digits } => write!(
                out,
                "the precision {precision} is above the format's {digits} digits"
            ),
            Self::SettingOutOfRange => out.write_str(
                "a setting or the summand is out of its range: each is one of its numbers, the \
                 precision at most the digits of the format, and of a contribution flush to zero \
                 and denormals-are-zero are off",
            ),
            Self::DifferentLengths => out.write_str(
                "the lists differ in length: they must have the same number of elements",
            ),
            Self::TooManyElements => out.write_str(
                "there are too many elements: a list has at most 268,435,456, and one fewer where \
                 a contribution is added to it",
            ),
            Self::StrayBit { place, list } => write!(
                out,
                "the element at index {place}{} does not fit the format's width",
                OfList(*list)
            ),
            Self::NoPence => out.write_str(
                "the list has no pence: it holds a NaN or an infinity, or its sum is 2^63 pence \
                 or more, of either sign",
            ),
            Self::BadShape => out.write_str(
                "rows times columns is not the number of cells: each row has a cell for each \
                 column",
            ),
            Self::NoRoom => out.write_str(
                "there is no room for the totals: their lists need a place for each row and each \
                 column",
            ),
            Self::BadAmount => out.write_str(
                "an amount or the ceiling is a bad one: tags are 0 to 2, used figures finite, a low at \
                 most its high, and the ceiling finite and not below zero",
            ),
            Self::NotAPage => out.write_str(
                "the bytes are not a page: they must be the page of the values in them, to the \
                 last bit, and hold at most 268,435,456 values",
            ),
            Self::BadSpan => out.write_str(
                "the span is not one of the page: it starts at most at its end, and ends at most \
                 at the number of values",
            ),
            Self::NoContribution => out.write_str(
                "no finite number brings the sum to the wanted total: another total may have one",
            ),
            Self::NotFinite => out.write_str(
                "the list holds a NaN or an infinity, or the wanted total is one: a contribution \
                 is for finite numbers",
            ),
            Self::NoPassAllowed => {
                out.write_str("the allowance is of no pass at all: it must be at least 1")
            }
            Self::TargetOutOfReach => out.write_str(
                "the target is out of reach: it has at most the digits of the list's format, and \
                 the list no NaN and no infinity",
            ),
            Self::Unknown { code } => write!(
                out,
                "libtotals.a answered {code}, which this crate does not know"
            ),
        }
    }
}

impl Error for Refusal {}

#[cfg(test)]
mod tests {
    use super::*;

    #[test]
    fn codes() {
        assert_eq!(Refusal::from_code(0), None);
        assert_eq!(
            Refusal::from_code(1),
            Some(Refusal::UnevenLength { list: None })
        );
        assert_eq!(Refusal::from_code(6), Some(Refusal::TooManyElements));
        for place in [0, 268_435_455] {
            assert_eq!(
                Refusal::from_code(7 + 256 * place as u64),
                Some(Refusal::StrayBit { place, list: None })
            );
        }
        assert_eq!(Refusal::from_code(8), Some(Refusal::NoPence));
        assert_eq!(Refusal::from_code(9), Some(Refusal::BadShape));
        assert_eq!(Refusal::from_code(10), Some(Refusal::NoRoom));
        assert_eq!(Refusal::from_code(11), Some(Refusal::BadAmount));
        assert_eq!(Refusal::from_code(12), Some(Refusal::NotAPage));
        assert_eq!(Refusal::from_code(13), Some(Refusal::BadSpan));
        assert_eq!(Refusal::from_code(14), Some(Refusal::NoContribution));
        assert_eq!(Refusal::from_code(15), Some(Refusal::NotFinite));
        assert_eq!(Refusal::from_code(16), Some(Refusal::NoPassAllowed));
        assert_eq!(Refusal::from_code(17), Some(Refusal::TargetOutOfReach));
        // a place belongs to a stray bit alone
        for code in [
            18,
            255,
            256,
            257,
            8 + 256,
            9 + 256,
            13 + 256,
            14 + 256,
            15 + 256,
            16 + 256,
            17 + 256,
            u64::MAX,
        ] {
            assert_eq!(Refusal::from_code(code), Some(Refusal::Unknown { code }));
        }
    }

    #[test]
    fn words() {
        for (refusal, words) in [
            (
                Refusal::UnevenLength {
                    list: Some(List::Right),
                },
                "the length of the right list in bytes is not that of whole values: each takes 8 \
                 bytes, one of X87 10, and three targets take 312",
            ),
            (
                Refusal::PrecisionOutOfRange {
                    precision: 54,
                    digits: 53,
                },
                "the precision 54 is above the format's 53 digits",
            ),
            (
                Refusal::StrayBit {
                    place: 2,
                    list: Some(List::Left),
                },
                "the element at index 2 of the left list does not fit the format's width",
            ),
            (
                Refusal::UnevenLength { list: None },
                "the length in bytes is not that of whole values: each takes 8 bytes, one of \
                 X87 10, and three targets take 312",
            ),
            (
                Refusal::ShortBuffer,
                "the buffer is too short: an answer takes 24 bytes, one of X87 32, of three \
                 targets 96, within an allowance 144, a contribution 8, the pair of a range two \
                 words, and a page what Page::length_of says",
            ),
            (
                Refusal::NoSuchFormat,
                "the call has no such format: exponent bits are 2 to 28, the width these + 2 to \
                 64, a named bias within 268,435,456 of 0; X87 is for totals of ten-byte values, \
                 and a contribution is for the kind IEEE",
            ),
            (
                Refusal::SettingOutOfRange,
                "a setting or the summand is out of its range: each is one of its numbers, the \
                 precision at most the digits of the format, and of a contribution flush to zero \
                 and denormals-are-zero are off",
            ),
            (
                Refusal::DifferentLengths,
                "the lists differ in length: they must have the same number of elements",
            ),
            (
                Refusal::TooManyElements,
                "there are too many elements: a list has at most 268,435,456, and one fewer where \
                 a contribution is added to it",
            ),
            (
                Refusal::NoPence,
                "the list has no pence: it holds a NaN or an infinity, or its sum is 2^63 pence \
                 or more, of either sign",
            ),
            (
                Refusal::BadShape,
                "rows times columns is not the number of cells: each row has a cell for each \
                 column",
            ),
            (
                Refusal::NoRoom,
                "there is no room for the totals: their lists need a place for each row and each \
                 column",
            ),
            (
                Refusal::BadAmount,
                "an amount or the ceiling is a bad one: tags are 0 to 2, used figures finite, a low at \
                 most its high, and the ceiling finite and not below zero",
            ),
            (
                Refusal::NotAPage,
                "the bytes are not a page: they must be the page of the values in them, to the \
                 last bit, and hold at most 268,435,456 values",
            ),
            (
                Refusal::BadSpan,
                "the span is not one of the page: it starts at most at its end, and ends at most \
                 at the number of values",
            ),
            (
                Refusal::NoContribution,
                "no finite number brings the sum to the wanted total: another total may have one",
            ),
            (
                Refusal::NotFinite,
                "the list holds a NaN or an infinity, or the wanted total is one: a contribution \
                 is for finite numbers",
            ),
            (
                Refusal::TargetOutOfReach,
                "the target is out of reach: it has at most the digits of the list's format, and \
                 the list no NaN and no infinity",
            ),
            (
                Refusal::NoPassAllowed,
                "the allowance is of no pass at all: it must be at least 1",
            ),
            (
                Refusal::StrayBit {
                    place: 1,
                    list: None,
                },
                "the element at index 1 does not fit the format's width",
            ),
        ] {
            assert_eq!(refusal.to_string(), words);
        }
    }

    /// Each of the seventeen numbers has a sentence of its own, and is not an unknown one.
    #[test]
    fn each_has_words_of_its_own() {
        let words = (1..=17).map(|code| Refusal::from_code(code).unwrap().to_string());
        let words: Vec<String> = words.collect();
        for (i, one) in words.iter().enumerate() {
            assert!(
                !one.contains("does not know") && !one.contains("  "),
                "{one}"
            );
            assert!(!words[..i].contains(one), "{one}");
        }
    }
}
