use core::fmt::{self, Debug, Display, Formatter};

use crate::Refusal;

/// The exponent field of 2^1023, the greatest power of two of `f64`: 16383 + 1023.
const HIGHEST_FIELD: i32 = 17_406;
/// The exponent field of 2^−1022, the least normal number of `f64`: 16383 − 1022.
const LEAST_NORMAL_FIELD: i32 = 15_361;
/// The exponent field of 2^−1074, the least number of `f64`.
const LEAST_FIELD: i32 = 15_309;
/// The exponent field of infinities and NaNs.
const TOP_FIELD: u16 = 0x7fff;
const SIGN: u16 = 0x8000;
const LEADING: u64 = 1 << 63;

/// A number in the 80 bits of the x87, the `long double` of C on x86-64: ten bytes, the least
/// first.
///
/// Eight bytes are the significand, 64 digits of which the leading one is written out; two are the
/// head, 15 bits of exponent field under the sign. Any ten bytes are an `X87`; what they stand for
/// is said in `docs/SPECIFICATION.md` of the repository:
///
/// - A field above 0 over a leading digit of 0 stands for nothing: [`X87::is_unsupported`]. A list
///   with one has the default NaN for each of its totals, and
///   [`Flags::INVALID`](crate::Flags::INVALID).
/// - A leading digit of 1 over a field of 0 is read as its number, which counts as subnormal. No
///   result is written so.
///
/// A list is a `&[X87]`, for [`sum`](crate::sum), [`magnitude_sum`](crate::magnitude_sum),
/// [`square_sum`](crate::square_sum), [`dot`](crate::dot) and, under other settings,
/// [`Totals`](crate::Totals). Bytes are one where they lie: [`X87::list_of`]. Of pence, tables and
/// pages there are none.
///
/// ```
/// use fermuzhai::{sum, Flags, Settings, Totals, X87};
///
/// let list = [1.0, 2f64.powi(-63)].map(X87::from);
/// let total = sum(&list)?;
/// assert_eq!(total.result, X87::from_parts(0x3fff, 0x8000_0000_0000_0001));
/// assert_eq!(total.flags, Flags::NONE);
/// // in 53 digits
/// let double = Totals::<X87>::new().with_settings(Settings::new().with_precision(53));
/// assert_eq!(double.sum(&list)?.result, X87::from(1.0));
///
/// // a field above 0, and no leading digit
/// let unnormal = X87::from_parts(0x3fff, 0x4000_0000_0000_0000);
/// assert!(unnormal.is_unsupported());
/// assert_eq!(sum(&[unnormal])?.to_string(), "0x7fffc000000000000000, flags INVALID, passes 0");
/// # Ok::<(), fermuzhai::Refusal>(())
/// ```
///
/// Two are equal where their bytes are: so −0 is not +0, and a NaN equals itself. It is shown in
/// hexadecimal, the head before the significand.
#[derive(Clone, Copy, Default, PartialEq, Eq, Hash)]
#[repr(transparent)]
pub struct X87([u8; 10]);

impl X87 {
    /// The value of ten bytes, the least first.
    #[must_use]
    pub const fn from_bytes(bytes: [u8; 10]) -> Self {
        Self(bytes)
    }

    /// Its ten bytes, the least first.
    #[must_use]
    pub const fn to_bytes(self) -> [u8; 10] {
        self.0
    }

    /// The value of a head, the sign above 15 bits of exponent field, and a significand.
    ///
    /// ```
    /// use fermuzhai::X87;
    ///
    /// let minus_one = X87::from_parts(0xbfff, 0x8000_0000_0000_0000);
    /// assert_eq!(minus_one.to_bytes(), [0, 0, 0, 0, 0, 0, 0, 0x80, 0xff, 0xbf]);
    /// assert_eq!(minus_one, X87::from(-1.0));
    /// ```
    #[must_use]
    pub const fn from_parts(head: u16, significand: u64) -> Self {
        let [a, b, c, d, e, f, g, h] = significand.to_le_bytes();
        let [low, high] = head.to_le_bytes();
        Self([a, b, c, d, e, f, g, h, low, high])
    }

    /// The sign, above 15 bits of exponent field.
    #[must_use]
    pub const fn head(self) -> u16 {
        let [.., low, high] = self.0;
        u16::from_le_bytes([low, high])
    }

    /// The significand, with its leading digit.
    #[must_use]
    pub const fn significand(self) -> u64 {
        let [a, b, c, d, e, f, g, h, ..] = self.0;
        u64::from_le_bytes([a, b, c, d, e, f, g, h])
    }

    /// Whether it stands for nothing: the exponent field is above 0, and the leading digit is 0.
    /// Such are the unnormals and, with a field of all ones, the pseudo-infinities and pseudo-NaNs.
    #[must_use]
    pub const fn is_unsupported(self) -> bool {
        self.head() & TOP_FIELD != 0 && self.significand() < LEADING
    }

    /// The `f64` that is this value, where there is one: the same number, infinity or zero of its
    /// sign, or a NaN of the same sign and digits. Nothing is rounded.
    ///
    /// ```
    /// use fermuzhai::{sum, X87};
    ///
    /// let total = sum(&[0.5, 1e300, -1e300].map(X87::from))?.result;
    /// assert_eq!(total.to_f64(), Some(0.5));
    /// // a digit too many
    /// assert_eq!(X87::from_parts(0x3fff, 0x8000_0000_0000_0001).to_f64(), None);
    /// # Ok::<(), fermuzhai::Refusal>(())
    /// ```
    #[must_use]
    pub const fn to_f64(self) -> Option<f64> {
        let (head, significand) = (self.head(), self.significand());
        let sign = ((head & SIGN) as u64) << 48;
        let field = (head & TOP_FIELD) as i32;
        // the digits below those of an f64, more where that is subnormal
        let (spare, exponent) = match field {
            0 if significand == 0 => return Some(f64::from_bits(sign)),
            _ if self.is_unsupported() => return None,
            0x7fff => (11, 0x7ff),
            LEAST_NORMAL_FIELD..=HIGHEST_FIELD => (11, (field - LEAST_NORMAL_FIELD + 1) as u64),
            LEAST_FIELD..LEAST_NORMAL_FIELD => (11 + LEAST_NORMAL_FIELD - field, 0),
            _ => return None,
        };
        if significand.trailing_zeros() < spare as u32 {
            return None;
        }
        let fraction = significand >> spare & !(1 << 52);
        Some(f64::from_bits(sign | exponent << 52 | fraction))
    }

    /// The list that the bytes are, ten a value, the least byte first. Nothing is copied.
    ///
    /// # Errors
    ///
    /// [`Refusal::UnevenLength`], of a length that is not a multiple of ten.
    ///
    /// ```
    /// use fermuzhai::{sum, Refusal, X87};
    ///
    /// let file = *b"\0\0\0\0\0\0\0\x80\xff\x3f\0\0\0\0\0\0\0\xc0\0\x40";
    /// assert_eq!(X87::list_of(&file)?, [1.0, 3.0].map(X87::from));
    /// assert_eq!(sum(X87::list_of(&file)?)?.result, X87::from(4.0));
    /// assert_eq!(X87::list_of(&file[1..]), Err(Refusal::UnevenLength { list: None }));
    /// # Ok::<(), Refusal>(())
    /// ```
    pub const fn list_of(bytes: &[u8]) -> Result<&[Self], Refusal> {
        if bytes.len() % size_of::<Self>() != 0 {
            return Err(Refusal::UnevenLength { list: None });
        }
        let count = bytes.len() / size_of::<Self>();
        // SAFETY: the pointer is that of a slice of ten times as many bytes, which stays borrowed
        // as long as the list is. A value is ten bytes, of any value and at any address.
        Ok(unsafe { core::slice::from_raw_parts(bytes.as_ptr().cast(), count) })
    }

    /// The bytes of a list, ten a value, the least byte first. Nothing is copied.
    ///
    /// ```
    /// use fermuzhai::X87;
    ///
    /// let list = [X87::from(1.0); 3];
    /// assert_eq!(X87::bytes_of(&list).len(), 30);
    /// assert_eq!(X87::list_of(X87::bytes_of(&list)), Ok(&list[..]));
    /// ```
    #[must_use]
    pub const fn bytes_of(list: &[Self]) -> &[u8] {
        // SAFETY: the pointer and the size are those of one slice, which stays borrowed as long as
        // the bytes are. A value is ten bytes and no padding.
        unsafe { core::slice::from_raw_parts(list.as_ptr().cast(), list.len() * size_of::<Self>()) }
    }
}

/// The same number, infinity or zero; a NaN keeps its sign, its quiet bit and its digits.
///
/// ```
/// use fermuzhai::X87;
///
/// let least = X87::from(5e-324); // 2^−1074, which is a normal number here
/// assert_eq!((least.head(), least.significand()), (16383 - 1074, 1 << 63));
/// assert_eq!(least.to_f64(), Some(5e-324));
/// ```
impl From<f64> for X87 {
    fn from(value: f64) -> Self {
        let bits = value.to_bits();
        let sign = (bits >> 48) as u16 & SIGN;
        let exponent = (bits >> 52) as u16 & 0x7ff;
        let fraction = bits & ((1 << 52) - 1);
        let (field, significand) = match (exponent, fraction) {
            (0, 0) => (0, 0),
            // a leading digit of 2^(63 − 1074) and a field of 16383 + 63 − 1074, less what it is
            // moved by
            (0, _) => {
                let moved = fraction.leading_zeros();
                (15_372 - moved as u16, fraction << moved)
            }
            (0x7ff, _) => (TOP_FIELD, LEADING | fraction << 11),
            _ => (exponent + 15_360, LEADING | fraction << 11),
        };
        Self::from_parts(sign | field, significand)
    }
}

/// `0x`, the four digits of the head and the sixteen of the significand.
impl Display for X87 {
    fn fmt(&self, out: &mut Formatter<'_>) -> fmt::Result {
        write!(out, "0x{:04x}{:016x}", self.head(), self.significand())
    }
}

impl Debug for X87 {
    fn fmt(&self, out: &mut Formatter<'_>) -> fmt::Result {
        write!(out, "X87({self})")
    }
}

#[cfg(test)]
mod tests {
    use super::*;

    const ONE: u64 = LEADING;

    #[test]
    fn parts_stand_in_their_places() {
        let bytes = [1, 2, 3, 4, 5, 6, 7, 8, 9, 10];
        let value = X87::from_bytes(bytes);
        assert_eq!(
            (value.head(), value.significand()),
            (0x0a09, 0x0807_0605_0403_0201)
        );
        let parts = X87::from_parts(value.head(), value.significand());
        assert_eq!((parts, parts.to_bytes()), (value, bytes));
        assert_eq!(format!("{value:?}"), "X87(0x0a090807060504030201)");
        assert_eq!(X87::default(), X87::from(0.0));
    }

    #[test]
    fn unsupported() {
        for (head, significand, wanted) in [
            (0, 0, false),
            (0, 1, false),
            (0, ONE, false),
            (1, ONE, false),
            (0x8000, ONE - 1, false),
            (0x7fff, ONE, false),
            (0xffff, u64::MAX, false),
            // unnormals, a pseudo-infinity, pseudo-NaNs
            (1, 0, true),
            (0x8001, ONE - 1, true),
            (0x7ffe, 1, true),
            (0x7fff, 0, true),
            (0xffff, 1 << 62, true),
            (0x7fff, ONE - 1, true),
        ] {
            let value = X87::from_parts(head, significand);
            assert_eq!(value.is_unsupported(), wanted, "{value}");
            assert!(!wanted || value.to_f64().is_none(), "{value}");
        }
    }

    /// 2^n is the field n + 16383 above the leading digit alone.
    #[test]
    fn powers_of_two() {
        for n in -1074..=1023 {
            let double = f64::from_bits(match n {
                ..-1022 => 1 << (n + 1074),
                _ => ((n + 1023) as u64) << 52,
            });
            let value = X87::from_parts((n + 16_383) as u16, ONE);
            assert_eq!(X87::from(double), value, "2^{n}");
            assert_eq!(value.to_f64(), Some(double), "2^{n}");
            let minus = X87::from_parts((n + 16_383) as u16 | SIGN, ONE);
            assert_eq!(X87::from(-double), minus, "−2^{n}");
            assert_eq!(minus.to_f64(), Some(-double), "−2^{n}");
        }
        for n in [-16_382, -1075, 1024, 16_383] {
            let value = X87::from_parts((n + 16_383) as u16, ONE);
            assert_eq!(value.to_f64(), None, "2^{n}");
        }
    }

    /// From exact fractions, and as the processor converts them.
    #[test]
    fn doubles_in_80_bits() {
        for (double, head, significand) in [
            (0.1, 0x3ffb, 0xcccc_cccc_cccc_d000),
            (-1e300, 0xc3e3, 0xbf21_e440_03ac_e000),
            (f64::MAX, 0x43fe, 0xffff_ffff_ffff_f800),
            // subnormal as an f64
            (2.225073858507201e-308, 0x3c00, 0xffff_ffff_ffff_f000),
            (-3e-320, 0xbbd9, 0xbdc0_0000_0000_0000),
            (f64::INFINITY, 0x7fff, LEADING),
            (-0.0, 0x8000, 0),
        ] {
            let value = X87::from_parts(head, significand);
            assert_eq!(X87::from(double), value, "{double}");
        }
    }

    #[test]
    fn every_double_comes_back() {
        let mut bits: u64 = 1;
        for k in 0..20_000u64 {
            bits = bits
                .wrapping_mul(6_364_136_223_846_793_005)
                .wrapping_add(1_442_695_040_888_963_407);
            // every exponent, and each tenth subnormal, or a NaN
            let bits = match k % 10 {
                0 => bits & !(0x7ff << 52),
                1 => bits | 0x7ff << 52,
                _ => bits,
            };
            let value = X87::from(f64::from_bits(bits));
            assert!(!value.is_unsupported());
            assert_eq!(value.to_f64().map(f64::to_bits), Some(bits), "{bits:016x}");
        }
        for double in [
            0.0,
            -0.0,
            f64::INFINITY,
            f64::NEG_INFINITY,
            f64::MAX,
            5e-324,
        ] {
            let back = X87::from(double).to_f64().map(f64::to_bits);
            assert_eq!(back, Some(double.to_bits()), "{double}");
        }
    }

    #[test]
    fn what_no_double_is() {
        for (head, significand) in [
            // 53 digits and one more, of a normal number, a subnormal one, and a NaN
            (0x3fff, ONE | 1 << 10),
            (0x3c00, ONE | 1 << 11),
            (0x7fff, ONE | 1 << 10),
            // below the least subnormal number; the least number here; a pseudo-denormal
            (15_308, ONE),
            (15_309, ONE | 1 << 62),
            (0, 1),
            (0x8000, ONE),
            // above the greatest
            (17_407, ONE),
        ] {
            let value = X87::from_parts(head, significand);
            assert_eq!(value.to_f64(), None, "{value}");
        }
        assert_eq!(X87::from_parts(0x7fff, ONE).to_f64(), Some(f64::INFINITY));
    }

    #[test]
    fn lists_and_bytes() {
        let bytes: [u8; 40] = core::array::from_fn(|i| i as u8);
        // at any address
        for from in 0..10 {
            let list = X87::list_of(&bytes[from..from + 30]).unwrap();
            assert_eq!(list.len(), 3);
            for (i, value) in list.iter().enumerate() {
                assert_eq!(value.to_bytes(), bytes[from + 10 * i..][..10]);
            }
            assert_eq!(X87::bytes_of(list), &bytes[from..from + 30]);
        }
        assert_eq!(X87::list_of(&[]), Ok(&[][..]));
        for length in [1, 9, 11, 19, 39] {
            let refused = Err(Refusal::UnevenLength { list: None });
            assert_eq!(X87::list_of(&bytes[..length]), refused);
        }
    }
}
