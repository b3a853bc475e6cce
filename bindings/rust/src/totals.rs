use alloc::borrow::Cow;
use alloc::vec;
use core::marker::PhantomData;
use core::ops::RangeBounds;

use crate::{
    raw, Float, Format, Kind, List, Page, Record, Refusal, Settings, Summand, Table, Value, Word,
};

/// The most rows, or columns, that [`Totals::table`] makes room for where there are no cells. A
/// table with cells has at most as many of either.
const MOST_EMPTY: usize = 1 << 20;

/// The four totals in one format and under one choice of settings; the same within an allowance of
/// passes; the sums of the rows and columns of a table; those of a span of a page; a sum in several
/// formats; the contribution that brings a sum to a wanted total; and the pence of a sum, in which
/// settings play no part.
///
/// [`Totals::new`] is for the floats of Rust and for [`X87`](crate::X87), which has the four totals
/// alone; [`Totals::of`] is for encodings of any other format.
///
/// ```
/// use fermuzhai::{Format, Rounding, Settings, Totals};
///
/// let down = Settings::new().with_rounding(Rounding::TowardNegative);
///
/// let record = Totals::<f64>::new().with_settings(down).sum(&[1.0, -1.0])?;
/// assert!(record.result.is_sign_negative());
///
/// // one and a half, in half precision
/// let record = Totals::of(Format::BINARY16).sum(&[0x3c00, 0x3800])?;
/// assert_eq!(record.result, 0x3e00);
/// # Ok::<(), fermuzhai::Refusal>(())
/// ```
#[derive(Clone, Copy, Debug, PartialEq)]
pub struct Totals<T> {
    format: Format,
    settings: Settings,
    value: PhantomData<T>,
}

impl<T: Float> Totals<T> {
    /// Totals of `f64`, `f32` or [`X87`](crate::X87), with the settings of [`Settings::new`].
    #[must_use]
    pub const fn new() -> Self {
        Self {
            format: T::FORMAT,
            settings: Settings::new(),
            value: PhantomData,
        }
    }
}

impl<T: Float> Default for Totals<T> {
    fn default() -> Self {
        Self::new()
    }
}

/// A page holds binary64.
impl Totals<f64> {
    /// One of the three sums, of the values of a span of a page: what [`Totals::sum_of`] gives for
    /// them as a list of their own. An empty span is +0, toward negative too.
    ///
    /// The values are read where they lie, those of the span alone: the page was looked at when it
    /// was opened.
    ///
    /// # Errors
    ///
    /// [`Refusal::BadSpan`] where the span starts above its end, or ends above [`Page::len`]; else
    /// [`Refusal::PrecisionOutOfRange`].
    ///
    /// Proved: the contract of `totals_sum` in `crates/totals/src/entry.rt`; `page-only`,
    /// `span-values`, `page-span-read`, `page-span` (the total of a span is that of its values as a
    /// list) in `crates/pages_spec/proofs`.
    ///
    /// ```
    /// use fermuzhai::{Page, Refusal, Rounding, Settings, Summand, Totals};
    ///
    /// let written = Page::write(&[3.0, -4.0, 4.0])?;
    /// let page = Page::open(&written)?;
    /// let down = Settings::new().with_rounding(Rounding::TowardNegative);
    /// let totals = Totals::<f64>::new().with_settings(down);
    /// assert_eq!(totals.page_sum(Summand::Square, &page, ..2)?.result, 25.0);
    /// assert_eq!(totals.page_sum(Summand::Magnitude, &page, ..)?.result, 11.0);
    /// assert!(totals.page_sum(Summand::Value, &page, 1..)?.result.is_sign_negative());
    /// assert!(totals.page_sum(Summand::Value, &page, 1..1)?.result.is_sign_positive());
    /// assert_eq!(totals.page_sum(Summand::Value, &page, 2..4), Err(Refusal::BadSpan));
    /// # Ok::<(), Refusal>(())
    /// ```
    pub fn page_sum(
        &self,
        summand: Summand,
        page: &Page<'_>,
        span: impl RangeBounds<usize>,
    ) -> Result<Record<f64>, Refusal> {
        self.sum_bytes(summand, page.part(span)?)
    }
}

impl Totals<u64> {
    /// Totals of encodings of a format, with the settings of [`Settings::new`].
    #[must_use]
    pub const fn of(format: Format) -> Self {
        Self {
            format,
            settings: Settings::new(),
            value: PhantomData,
        }
    }
}

impl<T: Value> Totals<T> {
    /// The same totals with other settings.
    #[must_use]
    pub const fn with_settings(self, settings: Settings) -> Self {
        Self { settings, ..self }
    }

    /// The format.
    #[must_use]
    pub const fn format(&self) -> Format {
        self.format
    }

    /// The settings.
    #[must_use]
    pub const fn settings(&self) -> Settings {
        self.settings
    }

    /// The sum of the values.
    ///
    /// # Errors
    ///
    /// The first of these that holds:
    ///
    /// - [`Refusal::NoSuchFormat`], of encodings of a format that the library does not have, or
    ///   that names a bias out of its range
    /// - [`Refusal::PrecisionOutOfRange`]
    /// - [`Refusal::TooManyElements`], of more than 268,435,456 values
    /// - [`Refusal::StrayBit`], of an encoding that is wider than the format
    ///
    /// Of finite values, negating each of them and exchanging the two directed roundings gives the
    /// negated result with the same flags and passes, and the other side, provided that the result
    /// is neither zero nor NaN. [`Kind::Fnuz`](crate::Kind::Fnuz)'s zero is its own negative.
    ///
    /// ```
    /// use fermuzhai::{Rounding, Settings, Side, Totals};
    ///
    /// let plain = Settings::new();
    /// let toward = |rounding| Totals::<f64>::new().with_settings(plain.with_rounding(rounding));
    /// let up = toward(Rounding::TowardPositive).sum(&[1.0, 1e-40])?;
    /// let down = toward(Rounding::TowardNegative).sum(&[-1.0, -1e-40])?;
    /// assert_eq!(down.result, -up.result);
    /// assert_eq!((down.flags, down.passes), (up.flags, up.passes));
    /// assert_eq!((up.side, down.side), (Side::Above, Side::Below));
    /// # Ok::<(), fermuzhai::Refusal>(())
    /// ```
    ///
    /// Proved: `sum-exact`, `sum-entry-order`, `sum-mirror`, and of [`X87`](crate::X87)
    /// `extended-exact`, `extended-call-order`, `extended-mirror`, in
    /// `crates/totals_spec/proofs` and `crates/mirror_spec/proofs`.
    pub fn sum(&self, values: &[T]) -> Result<Record<T>, Refusal> {
        self.sum_of(Summand::Value, values)
    }

    /// The sum of the magnitudes of the values.
    ///
    /// # Errors
    ///
    /// Those of [`Totals::sum`].
    ///
    /// Proved: `sum-exact`, `sum-entry-order`, and of [`X87`](crate::X87) `extended-exact`,
    /// `extended-call-order`, in `crates/totals_spec/proofs`.
    pub fn magnitude_sum(&self, values: &[T]) -> Result<Record<T>, Refusal> {
        self.sum_of(Summand::Magnitude, values)
    }

    /// The sum of the squares of the values.
    ///
    /// # Errors
    ///
    /// Those of [`Totals::sum`].
    ///
    /// Without a NaN it is the dot product of the list with itself, record for record.
    ///
    /// Proved: `sum-exact`, `sum-entry-order`, `square-dot`, and of [`X87`](crate::X87)
    /// `extended-exact`, `extended-call-order`, in `crates/totals_spec/proofs`.
    pub fn square_sum(&self, values: &[T]) -> Result<Record<T>, Refusal> {
        self.sum_of(Summand::Square, values)
    }

    /// The dot product: the sum of the products of the pairs.
    ///
    /// # Errors
    ///
    /// Those of [`Totals::sum`], and after the precision [`Refusal::DifferentLengths`], of lists of
    /// two lengths.
    ///
    /// Of finite values, negating those of the left list and exchanging the two directed roundings
    /// gives the negated record, as of a sum.
    ///
    /// ```
    /// use fermuzhai::{Format, Totals};
    ///
    /// // 1 × 3 + 2 × 3, and −1 × 3 − 2 × 3, in half precision
    /// let halves = Totals::of(Format::BINARY16);
    /// assert_eq!(halves.dot(&[0x3c00, 0x4000], &[0x4200, 0x4200])?.result, 0x4880);
    /// assert_eq!(halves.dot(&[0xbc00, 0xc000], &[0x4200, 0x4200])?.result, 0xc880);
    /// # Ok::<(), fermuzhai::Refusal>(())
    /// ```
    ///
    /// Proved: `dot-exact`, `dot-entry-order`, `dot-mirror`, and of [`X87`](crate::X87)
    /// `extended-exact`, `extended-call-order`, `extended-mirror`, in
    /// `crates/totals_spec/proofs` and `crates/mirror_spec/proofs`.
    pub fn dot(&self, left: &[T], right: &[T]) -> Result<Record<T>, Refusal> {
        self.dot_bytes(&T::bytes(left), &T::bytes(right))
    }

    /// One of the three sums, chosen by its summand.
    ///
    /// # Errors
    ///
    /// Those of [`Totals::sum`].
    ///
    /// Proved: `sum-exact`, `sum-entry-order`, and of [`X87`](crate::X87) `extended-exact`,
    /// `extended-call-order`, in `crates/totals_spec/proofs`.
    pub fn sum_of(&self, summand: Summand, values: &[T]) -> Result<Record<T>, Refusal> {
        self.sum_bytes(summand, &T::bytes(values))
    }

    /// One of the three sums, of values in bytes: eight a value, or ten of [`X87`](crate::X87), the
    /// least byte first.
    ///
    /// # Errors
    ///
    /// [`Refusal::UnevenLength`], of a length that is not a multiple of 8, or of 10; else those of
    /// [`Totals::sum`].
    ///
    /// Proved: `sum-exact`, `sum-entry-order`, and of [`X87`](crate::X87) `extended-exact`,
    /// `extended-call-order`, in `crates/totals_spec/proofs`.
    ///
    /// ```
    /// use fermuzhai::{Refusal, Summand, Totals};
    ///
    /// let file = [0, 0, 0, 0, 0, 0, 0xf0, 0x3f, 0, 0, 0, 0, 0, 0, 0xd0, 0x3f];
    /// let totals = Totals::<f64>::new();
    /// assert_eq!(totals.sum_bytes(Summand::Value, &file)?.result, 1.25);
    /// let cut = totals.sum_bytes(Summand::Value, &file[..15]);
    /// assert_eq!(cut, Err(Refusal::UnevenLength { list: None }));
    /// # Ok::<(), fermuzhai::Refusal>(())
    /// ```
    pub fn sum_bytes(&self, summand: Summand, values: &[u8]) -> Result<Record<T>, Refusal> {
        let summand = summand as u64;
        self.answer(|f, c, answer| match self.format.named_bias {
            None => raw::sum(f, c, summand, values, answer),
            Some(bias) => raw::sum_biased(f, bias, c, summand, values, answer),
        })
        .map_err(|refusal| self.with_setting(refusal))
    }

    /// The dot product of values in bytes: eight a value, or ten of [`X87`](crate::X87), the least
    /// byte first.
    ///
    /// # Errors
    ///
    /// [`Refusal::UnevenLength`], of a length that is not a multiple of 8, or of 10; else those of
    /// [`Totals::dot`].
    ///
    /// Proved: `dot-exact`, `dot-entry-order`, and of [`X87`](crate::X87) `extended-exact`,
    /// `extended-call-order`, in `crates/totals_spec/proofs`.
    pub fn dot_bytes(&self, left: &[u8], right: &[u8]) -> Result<Record<T>, Refusal> {
        self.answer(|f, c, answer| match self.format.named_bias {
            None => raw::dot(f, c, left, right, answer),
            Some(bias) => raw::dot_biased(f, bias, c, left, right, answer),
        })
        .map_err(|refusal| self.with_list(self.with_setting(refusal), left))
    }

    /// Lends an entry the bytes of an answer and reads what it leaves there.
    fn answer(
        &self,
        entry: impl FnOnce(raw::Format, raw::Settings, &mut [u8]) -> u64,
    ) -> Result<Record<T>, Refusal> {
        if self.format.kind == Kind::X87 && T::SIZE == 8 {
            // its values take ten bytes, so no list of words has any
            return Err(Refusal::NoSuchFormat);
        }
        let mut answer = [[0; 8]; 4];
        let code = entry(
            self.format.into(),
            self.settings.into(),
            &mut answer.as_flattened_mut()[..T::ANSWER],
        );
        match Refusal::from_code(code) {
            Some(refusal) => Err(refusal),
            None => Ok(T::record(&answer)),
        }
    }

    /// Says which setting is out of its range.
    pub(crate) fn with_setting(&self, refusal: Refusal) -> Refusal {
        refusal.with_setting(self.format, self.settings)
    }

    /// Says which list of a dot is refused: the left one where that is at fault, else the right.
    pub(crate) fn with_list(&self, refusal: Refusal, left: &[u8]) -> Refusal {
        let which = |left_is: bool| Some(if left_is { List::Left } else { List::Right });
        match refusal {
            Refusal::UnevenLength { .. } => Refusal::UnevenLength {
                list: which(left.len() % T::SIZE != 0),
            },
            Refusal::StrayBit { place, .. } => Refusal::StrayBit {
                place,
                list: which(self.is_stray(left, place)),
            },
            _ => refusal,
        }
    }

    /// Whether the value at an index has a set bit at the format's width or above.
    fn is_stray(&self, values: &[u8], place: usize) -> bool {
        let word = values.chunks_exact(8).nth(place).map(|bytes| {
            bytes
                .iter()
                .rev()
                .fold(0, |word: u64, &byte| word << 8 | u64::from(byte))
        });
        word.and_then(|word| word.checked_shr(self.format.width.into()))
            .is_some_and(|above| above != 0)
    }
}

/// Pence and tables are taken of words.
impl<T: Word> Totals<T> {
    /// A list as an entry that refuses ten bytes a value takes it: no list of words has such a
    /// value, so none is lent, and the refusal is that of an empty list.
    pub(crate) fn lent<'a>(&self, values: &'a [T]) -> Cow<'a, [u8]> {
        if self.format.kind == Kind::X87 {
            Cow::Borrowed(&[])
        } else {
            T::bytes(values)
        }
    }

    /// The pence of the list: a hundred times the exact sum of its values, to the nearest whole
    /// number, a half away from zero.
    ///
    /// Nothing is rounded to the format in between: a sum that is too large for it can have pence.
    /// The settings play no part. Subnormal values count as they are, and a precision is not looked
    /// at. An empty list has 0, and so has a sum nearer to 0 than half a penny.
    ///
    /// # Errors
    ///
    /// The first of these that holds:
    ///
    /// - [`Refusal::NoSuchFormat`], of encodings of a format that the library does not have, or
    ///   that names a bias out of its range
    /// - [`Refusal::TooManyElements`], of more than 268,435,456 values
    /// - [`Refusal::StrayBit`], of an encoding that is wider than the format
    /// - [`Refusal::NoPence`], of a NaN or an infinity anywhere in the list, or a figure whose
    ///   magnitude is 2^63 or more
    ///
    /// Proved: the contract of `totals_pence` in `crates/totals/src/entry.rt`; `pence-by-chain`,
    /// `pence-order` (every order of a list without a stray bit has one answer), `one-pence` in
    /// `crates/totals_spec/proofs`.
    ///
    /// ```
    /// use fermuzhai::{Format, Refusal, Totals};
    ///
    /// // 65504, the largest number of half precision, twice
    /// let halves = Totals::of(Format::BINARY16);
    /// assert_eq!(halves.pence(&[0x7bff, 0x7bff])?, 13_100_800);
    ///
    /// // a NaN, and behind it an encoding that is too wide, which is refused first
    /// assert_eq!(halves.pence(&[0x7e00]), Err(Refusal::NoPence));
    /// let stray = Refusal::StrayBit { place: 1, list: None };
    /// assert_eq!(halves.pence(&[0x7e00, 0x1_0000]), Err(stray));
    /// # Ok::<(), fermuzhai::Refusal>(())
    /// ```
    pub fn pence(&self, values: &[T]) -> Result<i64, Refusal> {
        let named = self.format.named_bias;
        raw::pence(self.format.into(), named, &T::encodings(values))
            .map_err(|code| Refusal::from_code(code).unwrap_or(Refusal::Unknown { code }))
    }

    /// The sum of each row, of each column and of all cells of a table. The cells are one list, row
    /// after row.
    ///
    /// Each total is what [`Totals::sum`] gives for its own cells, a row from left to right, a
    /// column from top to bottom. Rows without columns, and columns without rows, are empty: their
    /// sum is +0, toward negative too.
    ///
    /// # Errors
    ///
    /// Those of [`Totals::table_into`]. Room is made for at most as many rows, and as many columns,
    /// as there are cells, or for 1,048,576 where there are none. A table without cells that has
    /// more of either is refused with [`Refusal::NoRoom`], and no memory is taken for it.
    ///
    /// Proved: `table-row`, `table-column`, `table-grand`, `table-refused-exactly` in
    /// `crates/figures_spec/proofs`.
    ///
    /// ```
    /// use fermuzhai::{Format, Refusal, Totals};
    ///
    /// // 1 2 3 and 1 1 1
    /// let cells = [0x3c00, 0x4000, 0x4200, 0x3c00, 0x3c00, 0x3c00];
    /// let halves = Totals::of(Format::BINARY16);
    /// let table = halves.table(&cells, 2, 3)?;
    /// assert_eq!(table.rows, [0x4600, 0x4200]); // 6 and 3
    /// assert_eq!(table.columns, [0x4000, 0x4200, 0x4400]); // 2, 3 and 4
    /// assert_eq!(table.grand.result, 0x4880); // 9
    ///
    /// assert_eq!(halves.table(&[], 3, 0)?.rows, [0, 0, 0]);
    /// assert_eq!(halves.table(&cells, 2, 2), Err(Refusal::BadShape));
    /// assert_eq!(halves.table(&[], usize::MAX, 0), Err(Refusal::NoRoom));
    /// # Ok::<(), fermuzhai::Refusal>(())
    /// ```
    pub fn table(&self, cells: &[T], rows: usize, columns: usize) -> Result<Table<T>, Refusal> {
        // where none is made the library refuses, if nothing else comes before
        let most = match cells.len() {
            0 => MOST_EMPTY,
            count => count,
        };
        let room = |n| vec![T::from_encoding(0); if n > most { 0 } else { n }];
        let (mut row_totals, mut column_totals) = (room(rows), room(columns));
        let grand = self.table_into(cells, rows, columns, &mut row_totals, &mut column_totals)?;
        Ok(Table {
            rows: row_totals,
            columns: column_totals,
            grand,
        })
    }

    /// [`Totals::table`] into two lists of the caller's. Returns the record of all cells.
    ///
    /// The first `rows` elements of `row_totals` and the first `columns` of `column_totals` are the
    /// totals. What lies beyond stays as it was, and a refused call leaves both lists so. Lists of
    /// `f64` and of encodings are written where they lie; of `f32` the cells and both lists are
    /// copied.
    ///
    /// # Errors
    ///
    /// The first of these that holds:
    ///
    /// - [`Refusal::NoSuchFormat`], of encodings of a format that the library does not have, or
    ///   that names a bias out of its range
    /// - [`Refusal::PrecisionOutOfRange`]
    /// - [`Refusal::TooManyElements`], of more than 268,435,456 cells
    /// - [`Refusal::BadShape`], where `rows` times `columns`, as whole numbers, is not the number
    ///   of cells
    /// - [`Refusal::NoRoom`], of a list of totals that is shorter than `rows` or `columns` asks for
    /// - [`Refusal::StrayBit`], of an encoding that is wider than the format, with the lowest index
    ///   of one in the cells
    ///
    /// Proved: the contract of `totals_table` in `crates/totals/src/entry.rt`; `table-row`,
    /// `table-column`, `table-grand`, `table-untouched`, `table-refused-exactly`,
    /// `table-entry-refused` in `crates/figures_spec/proofs`.
    ///
    /// ```
    /// use fermuzhai::{Refusal, Totals};
    ///
    /// let totals = Totals::<f64>::new();
    /// let (mut rows, mut columns) = ([7.0; 3], [7.0; 2]);
    /// let cells = [1e100, 1.0, -1e100, 0.5];
    /// let grand = totals.table_into(&cells, 2, 2, &mut rows, &mut columns)?;
    /// assert_eq!(rows, [1e100, -1e100, 7.0]);
    /// assert_eq!(columns, [0.0, 1.5]);
    /// assert_eq!(grand.result, 1.5); // and not the sum of the rounded totals of the rows, 0
    ///
    /// let refused = totals.table_into(&cells, 4, 1, &mut rows, &mut columns);
    /// assert_eq!(refused, Err(Refusal::NoRoom));
    /// assert_eq!(rows, [1e100, -1e100, 7.0]);
    /// # Ok::<(), fermuzhai::Refusal>(())
    /// ```
    pub fn table_into(
        &self,
        cells: &[T],
        rows: usize,
        columns: usize,
        row_totals: &mut [T],
        column_totals: &mut [T],
    ) -> Result<Record<T>, Refusal> {
        let shape = [rows as u64, columns as u64];
        let bias = self.format.named_bias;
        let cells = T::encodings(cells);
        self.answer(|f, c, answer| {
            T::lend(row_totals, |of_rows| {
                T::lend(column_totals, |of_columns| {
                    raw::table(f, bias, c, shape, &cells, [of_rows, of_columns], answer)
                })
            })
        })
        .map_err(|refusal| self.with_setting(refusal))
    }
}
