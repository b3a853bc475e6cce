use crate::{Format, X87};

/// What a list holds: `f64`, `f32`, [`X87`], or `u64` for encodings of a format that
/// [`Totals::of`](crate::Totals::of) names.
///
/// Sealed: no other type can have it.
pub trait Value: sealed::Value {}

/// A value that has a format of its own: `f64`, `f32` or [`X87`].
///
/// Sealed: no other type can have it.
pub trait Float: Value {
    /// The format.
    const FORMAT: Format;
}

/// A value of which pence, tables, sums into several formats, contributions and totals within an
/// allowance are taken: its encoding fits a word of 64 bits, as that of each does but of [`X87`].
///
/// Sealed: no other type can have it.
pub trait Word: Value + sealed::Word {}

impl Value for u64 {}
impl Value for f64 {}
impl Value for f32 {}
impl Value for X87 {}

impl Word for u64 {}
impl Word for f64 {}
impl Word for f32 {}

impl Float for f64 {
    const FORMAT: Format = Format::BINARY64;
}

impl Float for f32 {
    const FORMAT: Format = Format::BINARY32;
}

impl Float for X87 {
    const FORMAT: Format = Format::EXTENDED;
}

pub(crate) mod sealed {
    use alloc::borrow::Cow;
    use alloc::vec::Vec;
    use core::fmt::{self, Display, Formatter, LowerHex};
    use core::hash::Hash;

    use crate::{Flags, Record, Side, X87};

    pub trait Value: Copy {
        /// What two equal values have in common, bit for bit.
        type Encoding: Eq + Hash;

        /// The bytes of a value, as the byte entries read it.
        const SIZE: usize = 8;

        /// The bytes of an answer.
        const ANSWER: usize = 24;

        fn encoding(self) -> Self::Encoding;
        fn show(&self, out: &mut Formatter<'_>) -> fmt::Result;

        /// The encodings as the byte entries read them, the least byte of each first.
        fn bytes(values: &[Self]) -> Cow<'_, [u8]>;

        /// The record that an accepted call left in the first bytes of an answer.
        fn record(answer: &[[u8; 8]; 4]) -> Record<Self>;
    }

    pub trait Word: Value<Encoding = u64> {
        fn from_encoding(encoding: u64) -> Self;

        /// The encodings, one to a word.
        fn encodings(values: &[Self]) -> Cow<'_, [u64]> {
            Cow::Owned(values.iter().map(|value| value.encoding()).collect())
        }

        /// Lends the list as encodings, one to a word, and keeps what is then written to them.
        fn lend<R>(values: &mut [Self], call: impl FnOnce(&mut [u64]) -> R) -> R {
            let mut words = Self::encodings(values).into_owned();
            let answer = call(&mut words);
            for (value, word) in values.iter_mut().zip(words) {
                *value = Self::from_encoding(word);
            }
            answer
        }
    }

    impl Value for u64 {
        type Encoding = u64;

        fn encoding(self) -> u64 {
            self
        }

        fn show(&self, out: &mut Formatter<'_>) -> fmt::Result {
            out.write_str("0x")?;
            LowerHex::fmt(self, out)
        }

        fn bytes(values: &[Self]) -> Cow<'_, [u8]> {
            words(values)
        }

        fn record(answer: &[[u8; 8]; 4]) -> Record<Self> {
            word_record(answer)
        }
    }

    impl Word for u64 {
        fn from_encoding(encoding: u64) -> Self {
            encoding
        }

        fn encodings(values: &[Self]) -> Cow<'_, [u64]> {
            Cow::Borrowed(values)
        }

        fn lend<R>(values: &mut [Self], call: impl FnOnce(&mut [u64]) -> R) -> R {
            call(values)
        }
    }

    impl Value for f64 {
        type Encoding = u64;

        fn encoding(self) -> u64 {
            self.to_bits()
        }

        fn show(&self, out: &mut Formatter<'_>) -> fmt::Result {
            Display::fmt(self, out)
        }

        fn bytes(values: &[Self]) -> Cow<'_, [u8]> {
            words(values)
        }

        fn record(answer: &[[u8; 8]; 4]) -> Record<Self> {
            word_record(answer)
        }
    }

    impl Word for f64 {
        fn from_encoding(encoding: u64) -> Self {
            Self::from_bits(encoding)
        }

        /// The list itself, with nothing copied: in memory a float is its encoding, in whatever
        /// order the platform has the bytes of both.
        fn encodings(values: &[Self]) -> Cow<'_, [u64]> {
            const {
                assert!(size_of::<f64>() == size_of::<u64>());
                assert!(align_of::<f64>() >= align_of::<u64>());
            }
            // SAFETY: the pointer and the count are those of one slice, which stays borrowed as
            // long as the words are. A word has the size and no greater alignment than a float,
            // whose every bit has a value, and may have any value.
            Cow::Borrowed(unsafe {
                core::slice::from_raw_parts(values.as_ptr().cast(), values.len())
            })
        }

        /// As in [`Word::encodings`]: the list itself.
        fn lend<R>(values: &mut [Self], call: impl FnOnce(&mut [u64]) -> R) -> R {
            // SAFETY: as there. The slice is borrowed for writing as long as the words are, and a
            // float, too, may have any bits.
            call(unsafe {
                core::slice::from_raw_parts_mut(values.as_mut_ptr().cast(), values.len())
            })
        }
    }

    impl Value for f32 {
        type Encoding = u64;

        fn encoding(self) -> u64 {
            self.to_bits().into()
        }

        fn show(&self, out: &mut Formatter<'_>) -> fmt::Result {
            Display::fmt(self, out)
        }

        fn bytes(values: &[Self]) -> Cow<'_, [u8]> {
            Cow::Owned(copied(values))
        }

        fn record(answer: &[[u8; 8]; 4]) -> Record<Self> {
            word_record(answer)
        }
    }

    impl Word for f32 {
        /// An encoding of binary32 has its upper half clear.
        fn from_encoding(encoding: u64) -> Self {
            Self::from_bits(encoding as u32)
        }
    }

    impl Value for X87 {
        type Encoding = [u8; 10];

        const SIZE: usize = 10;

        const ANSWER: usize = 32;

        fn encoding(self) -> [u8; 10] {
            self.to_bytes()
        }

        fn show(&self, out: &mut Formatter<'_>) -> fmt::Result {
            Display::fmt(self, out)
        }

        /// The list itself, with nothing copied: a value is its bytes.
        fn bytes(values: &[Self]) -> Cow<'_, [u8]> {
            Cow::Borrowed(X87::bytes_of(values))
        }

        fn record(answer: &[[u8; 8]; 4]) -> Record<Self> {
            let [significand, [head, sign, flags, side, ..], _, passes] = *answer;
            Record {
                result: X87::from_parts(
                    u16::from_le_bytes([head, sign]),
                    u64::from_le_bytes(significand),
                ),
                flags: Flags::from_bits(flags),
                passes: u64::from_le_bytes(passes),
                side: Side::from_byte(side),
            }
        }
    }

    /// The record of an answer of 24 bytes.
    fn word_record<T: Word>(answer: &[[u8; 8]; 4]) -> Record<T> {
        let [result, [flags, _, side, ..], passes, _] = *answer;
        Record {
            result: T::from_encoding(u64::from_le_bytes(result)),
            flags: Flags::from_bits(flags),
            passes: u64::from_le_bytes(passes),
            side: Side::from_byte(side),
        }
    }

    fn copied<T: Word>(values: &[T]) -> Vec<u8> {
        let words: Vec<[u8; 8]> = values.iter().map(|v| v.encoding().to_le_bytes()).collect();
        words.into_flattened()
    }

    /// Eight bytes that are, in memory, the encoding.
    ///
    /// # Safety
    ///
    /// The type has no padding.
    unsafe trait Plain: Word {}

    // SAFETY: every bit of an integer or a float is a bit of its value.
    unsafe impl Plain for u64 {}
    // SAFETY: as above.
    unsafe impl Plain for f64 {}

    /// On a little-endian platform the list itself, with nothing copied.
    fn words<T: Plain>(values: &[T]) -> Cow<'_, [u8]> {
        if cfg!(target_endian = "big") {
            return Cow::Owned(copied(values));
        }
        // SAFETY: the pointer and the size are those of one slice, which stays borrowed as long as
        // the bytes are. A `Plain` has no padding, so each byte has a value, and a `u8` may have
        // any value and any address.
        Cow::Borrowed(unsafe {
            core::slice::from_raw_parts(values.as_ptr().cast(), size_of_val(values))
        })
    }

    #[cfg(test)]
    mod tests {
        use super::*;

        #[test]
        fn lent_bytes_are_those_copied() {
            let list = [0.0, -0.0, 1.5, f64::NAN, f64::INFINITY, 5e-324];
            assert_eq!(*f64::bytes(&list), *copied(&list));
            assert_eq!(f64::bytes(&list[1..3]).len(), 16);
            assert!(f64::bytes(&[]).is_empty());
            let encodings = list.map(f64::to_bits);
            assert_eq!(u64::bytes(&encodings), f64::bytes(&list));
            assert!(matches!(u64::bytes(&encodings), Cow::Borrowed(_)));
        }

        #[test]
        fn lent_words_are_the_encodings() {
            let list = [0.0, -0.0, 1.5, f64::NAN, f64::INFINITY, 5e-324];
            let encodings = list.map(f64::to_bits);
            for lent in [f64::encodings(&list), u64::encodings(&encodings)] {
                assert_eq!(*lent, encodings);
                assert!(matches!(lent, Cow::Borrowed(_)));
            }
            assert_eq!(*f64::encodings(&list[1..3]), encodings[1..3]);
            assert!(f64::encodings(&[]).is_empty());
            assert_eq!(*f32::encodings(&[1.0, -0.0]), [0x3f80_0000, 0x8000_0000]);
        }

        /// The second of three is written; the first is a signaling NaN, and every bit of it stays.
        #[test]
        fn what_is_written_is_kept() {
            fn written<T: Word>(mut list: [T; 3], encoding: u64) -> [u64; 3] {
                let before = list[1].encoding();
                let given = T::lend(&mut list, |words| {
                    assert_eq!(words.len(), 3);
                    core::mem::replace(&mut words[1], encoding)
                });
                assert_eq!(given, before);
                T::lend(&mut list[..0], |words| assert!(words.is_empty()));
                list.map(T::encoding)
            }
            let nan = 0x7ff0_0000_0000_0001;
            let one = 0x3ff0_0000_0000_0000;
            let doubles = [nan, one, nan + 1].map(f64::from_bits);
            assert_eq!(written(doubles, nan + 7), [nan, nan + 7, nan + 1]);
            assert_eq!(written([5, 6, 7], 8), [5, 8, 7]);
            let singles = [0x7f80_0001, 0x3f80_0000, 0x8000_0000].map(f32::from_bits);
            let wanted = [0x7f80_0001, 0xff80_0001, 0x8000_0000];
            assert_eq!(written(singles, 0xff80_0001), wanted);
        }

        #[test]
        fn singles_take_eight_bytes_each() {
            assert_eq!(
                *f32::bytes(&[1.0, -0.0]),
                [0, 0, 0x80, 0x3f, 0, 0, 0, 0, 0, 0, 0, 0x80, 0, 0, 0, 0]
            );
            assert_eq!(f32::from_encoding(f32::MAX.encoding()), f32::MAX);
        }
    }
}
