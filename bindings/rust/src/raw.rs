//! The thirteen entries of `libtotals.a`, as they are: four over bytes, [`pence`], [`table`],
//! [`range`] and [`contribution`] over words, [`page_sum`] and [`page_write`] for career pages,
//! [`sum_into`] for a sum in three formats, and [`sum_within`] and [`dot_within`] for what an
//! allowance of passes gives.
//!
//! The numbers and the layout of the answer are those of the repository's `docs/SPECIFICATION.md`.
//! For most callers [`Totals`](crate::Totals), for ranges [`crate::range`] and for pages
//! [`Page`](crate::Page) is the better way in.

use alloc::vec::Vec;

use crate::value::sealed::Value as _;

/// Kind, exponent bits, width.
pub type Format = [u64; 3];

/// Rounding, tininess, NaN propagation, sign of the default NaN, flush to zero, denormals are
/// zero, saturate, precision.
pub type Settings = [u64; 8];

/// Rows, columns.
pub type Shape = [u64; 2];

mod entry {
    extern "C" {
        pub fn totals_sum(
            kind: u64,
            exponent_bits: u64,
            width: u64,
            rounding: u64,
            tininess: u64,
            nan_propagation: u64,
            default_nan_negative: u64,
            flush_to_zero: u64,
            denormals_are_zero: u64,
            saturate: u64,
            precision: u64,
            summand: u64,
            values: *const u8,
            values_len: usize,
            answer: *mut u8,
            answer_len: usize,
        ) -> u64;
        pub fn totals_dot(
            kind: u64,
            exponent_bits: u64,
            width: u64,
            rounding: u64,
            tininess: u64,
            nan_propagation: u64,
            default_nan_negative: u64,
            flush_to_zero: u64,
            denormals_are_zero: u64,
            saturate: u64,
            precision: u64,
            left: *const u8,
            left_len: usize,
            right: *const u8,
            right_len: usize,
            answer: *mut u8,
            answer_len: usize,
        ) -> u64;
        pub fn totals_sum_biased(
            kind: u64,
            exponent_bits: u64,
            width: u64,
            bias: i64,
            rounding: u64,
            tininess: u64,
            nan_propagation: u64,
            default_nan_negative: u64,
            flush_to_zero: u64,
            denormals_are_zero: u64,
            saturate: u64,
            precision: u64,
            summand: u64,
            values: *const u8,
            values_len: usize,
            answer: *mut u8,
            answer_len: usize,
        ) -> u64;
        pub fn totals_dot_biased(
            kind: u64,
            exponent_bits: u64,
            width: u64,
            bias: i64,
            rounding: u64,
            tininess: u64,
            nan_propagation: u64,
            default_nan_negative: u64,
            flush_to_zero: u64,
            denormals_are_zero: u64,
            saturate: u64,
            precision: u64,
            left: *const u8,
            left_len: usize,
            right: *const u8,
            right_len: usize,
            answer: *mut u8,
            answer_len: usize,
        ) -> u64;
        pub fn totals_pence(
            kind: u64,
            exponent_bits: u64,
            width: u64,
            bias_named: u64,
            bias: i64,
            values: *const u64,
            count: usize,
            figure: *mut i64,
        ) -> u64;
        pub fn totals_table(
            kind: u64,
            exponent_bits: u64,
            width: u64,
            bias_named: u64,
            bias: i64,
            rounding: u64,
            tininess: u64,
            nan_propagation: u64,
            default_nan_negative: u64,
            flush_to_zero: u64,
            denormals_are_zero: u64,
            saturate: u64,
            precision: u64,
            rows: u64,
            columns: u64,
            cells: *const u64,
            count: usize,
            row_totals: *mut u64,
            row_room: usize,
            column_totals: *mut u64,
            column_room: usize,
            answer: *mut u8,
            answer_len: usize,
        ) -> u64;
        pub fn totals_range(
            tags: *const u64,
            tag_count: usize,
            first: *mut u64,
            first_count: usize,
            second: *mut u64,
            second_count: usize,
            ceiling: u64,
            pair: *mut u64,
            pair_room: usize,
        ) -> u64;
        pub fn totals_page_sum(
            page: *const u8,
            page_len: usize,
            start: usize,
            end: usize,
            rounding: u64,
            tininess: u64,
            nan_propagation: u64,
            default_nan_negative: u64,
            flush_to_zero: u64,
            denormals_are_zero: u64,
            saturate: u64,
            precision: u64,
            summand: u64,
            answer: *mut u8,
            answer_len: usize,
        ) -> u64;
        pub fn totals_page_write(
            values: *const u64,
            count: usize,
            page: *mut u8,
            page_room: usize,
        ) -> u64;
        pub fn totals_sum_into(
            kind: u64,
            exponent_bits: u64,
            width: u64,
            bias_named: u64,
            bias: i64,
            denormals_are_zero: u64,
            targets: *const u8,
            targets_len: usize,
            values: *const u8,
            values_len: usize,
            answer: *mut u8,
            answer_len: usize,
        ) -> u64;
        pub fn totals_sum_within(
            kind: u64,
            exponent_bits: u64,
            width: u64,
            bias_named: u64,
            bias: i64,
            rounding: u64,
            tininess: u64,
            nan_propagation: u64,
            default_nan_negative: u64,
            flush_to_zero: u64,
            denormals_are_zero: u64,
            saturate: u64,
            precision: u64,
            summand: u64,
            allowance: u64,
            values: *const u8,
            values_len: usize,
            answer: *mut u8,
            answer_len: usize,
        ) -> u64;
        pub fn totals_dot_within(
            kind: u64,
            exponent_bits: u64,
            width: u64,
            bias_named: u64,
            bias: i64,
            rounding: u64,
            tininess: u64,
            nan_propagation: u64,
            default_nan_negative: u64,
            flush_to_zero: u64,
            denormals_are_zero: u64,
            saturate: u64,
            precision: u64,
            allowance: u64,
            left: *const u8,
            left_len: usize,
            right: *const u8,
            right_len: usize,
            answer: *mut u8,
            answer_len: usize,
        ) -> u64;
        pub fn totals_contribution(
            kind: u64,
            exponent_bits: u64,
            width: u64,
            bias_named: u64,
            bias: i64,
            rounding: u64,
            tininess: u64,
            nan_propagation: u64,
            default_nan_negative: u64,
            flush_to_zero: u64,
            denormals_are_zero: u64,
            saturate: u64,
            precision: u64,
            wanted: u64,
            values: *const u64,
            count: usize,
            answer: *mut u8,
            answer_len: usize,
        ) -> u64;
    }
}

/// An entry, by its name, what stands before the settings, the settings, and what stands behind
/// them.
macro_rules! enter {
    ($entry:ident; $($before:expr),*; $c:ident; $($behind:expr),*) => {
        entry::$entry(
            $($before,)*
            $c[0], $c[1], $c[2], $c[3], $c[4], $c[5], $c[6], $c[7],
            $($behind),*
        )
    };
}

/// The sum of the values (summand 0), of their magnitudes (1) or of their squares (2).
///
/// Returns 0 and writes bytes 0 to 23 of the answer, or returns a refusal's code, which
/// [`Refusal::from_code`](crate::Refusal::from_code) reads, and writes nothing.
///
/// Of kind 4, `[4, 15, 80]`, a value takes ten bytes and the answer 32: the result in 0..9, the
/// flags in 10, the side in 11, zeros, the passes in 24..31.
///
/// Proved: the contract of `totals_sum` in `crates/totals/src/entry.rt`.
///
/// ```
/// use fermuzhai::raw;
///
/// let mut answer = [0; 24];
/// let values = raw::bytes(&[1.0f64.to_bits(), 0.25f64.to_bits()]);
/// assert_eq!(raw::sum([0, 11, 64], [0; 8], 0, &values, &mut answer), 0);
/// assert_eq!(answer[..8], 1.25f64.to_le_bytes());
///
/// let (mut answer, one) = ([7; 33], b"\0\0\0\0\0\0\0\x80\xff\x3f");
/// assert_eq!(raw::sum([4, 15, 80], [0; 8], 0, one, &mut answer), 0);
/// assert_eq!(answer[..10], one[..]);
/// assert_eq!(answer[24..], [1, 0, 0, 0, 0, 0, 0, 0, 7]);
/// ```
#[must_use = "the answer is written only where 0 is returned"]
pub fn sum(f: Format, c: Settings, summand: u64, values: &[u8], answer: &mut [u8]) -> u64 {
    // SAFETY: each pointer comes with the length of the slice that it is taken from, and `answer`,
    // being borrowed for writing, lies apart from `values`. Of the numbers nothing is asked.
    unsafe {
        enter!(
            totals_sum; f[0], f[1], f[2]; c;
            summand, values.as_ptr(), values.len(), answer.as_mut_ptr(), answer.len()
        )
    }
}

/// The sum of the products of the pairs. Returns and writes as [`sum`] does.
///
/// Proved: the contract of `totals_dot` in `crates/totals/src/entry.rt`.
///
/// ```
/// use fermuzhai::raw;
///
/// let mut answer = [0; 24];
/// let (left, right) = (raw::bytes(&[1.5f64.to_bits()]), raw::bytes(&[2.0f64.to_bits()]));
/// assert_eq!(raw::dot([0, 11, 64], [0; 8], &left, &right, &mut answer), 0);
/// assert_eq!(answer[..8], 3.0f64.to_le_bytes());
/// ```
#[must_use = "the answer is written only where 0 is returned"]
pub fn dot(f: Format, c: Settings, left: &[u8], right: &[u8], answer: &mut [u8]) -> u64 {
    // SAFETY: as in `sum`. The two lists may overlap, as both are only read.
    unsafe {
        enter!(
            totals_dot; f[0], f[1], f[2]; c;
            left.as_ptr(), left.len(), right.as_ptr(), right.len(), answer.as_mut_ptr(),
            answer.len()
        )
    }
}

/// [`sum`] in a format that names its bias, from −268,435,456 to 268,435,456. One outside is
/// refused with 3, and so is any of kind 4.
///
/// Proved: the contract of `totals_sum_biased` in `crates/totals/src/entry.rt`; `named-own` in
/// `crates/totals_spec/proofs`: naming the kind's own bias is the same as naming
/// none.
///
/// ```
/// use fermuzhai::raw;
///
/// // the square of 2^(1 − bias), in binary16
/// let least_normal = raw::bytes(&[0x0400]);
/// let mut answer = [0; 24];
/// assert_eq!(raw::sum_biased([0, 5, 16], -40, [0; 8], 2, &least_normal, &mut answer), 0);
/// assert_eq!(answer[..2], [0x00, 0x7c]); // 2^82 is too large, and becomes an infinity
/// assert_eq!(raw::sum_biased([0, 5, 16], 1, [0; 8], 2, &least_normal, &mut answer), 0);
/// assert_eq!(answer[..2], [0x00, 0x04]); // 1
/// assert_eq!(raw::sum_biased([0, 5, 16], 268_435_457, [0; 8], 2, &least_normal, &mut answer), 3);
/// ```
#[must_use = "the answer is written only where 0 is returned"]
pub fn sum_biased(
    f: Format,
    bias: i64,
    c: Settings,
    summand: u64,
    values: &[u8],
    answer: &mut [u8],
) -> u64 {
    // SAFETY: as in `sum`.
    unsafe {
        enter!(
            totals_sum_biased; f[0], f[1], f[2], bias; c;
            summand, values.as_ptr(), values.len(), answer.as_mut_ptr(), answer.len()
        )
    }
}

/// [`dot`] in a format that names its bias, as in [`sum_biased`].
///
/// Proved: the contract of `totals_dot_biased` in `crates/totals/src/entry.rt`; `named-own` in
/// `crates/totals_spec/proofs`.
///
/// ```
/// use fermuzhai::raw;
///
/// // 0x70 is a half with a bias of 15, in eight bits with four of exponent; 0x68 is a quarter
/// let halves = raw::bytes(&[0x70]);
/// let mut answer = [0; 24];
/// assert_eq!(raw::dot_biased([3, 4, 8], 15, [0; 8], &halves, &halves, &mut answer), 0);
/// assert_eq!(answer[0], 0x68);
/// ```
#[must_use = "the answer is written only where 0 is returned"]
pub fn dot_biased(
    f: Format,
    bias: i64,
    c: Settings,
    left: &[u8],
    right: &[u8],
    answer: &mut [u8],
) -> u64 {
    // SAFETY: as in `dot`.
    unsafe {
        enter!(
            totals_dot_biased; f[0], f[1], f[2], bias; c;
            left.as_ptr(), left.len(), right.as_ptr(), right.len(), answer.as_mut_ptr(),
            answer.len()
        )
    }
}

/// The pence of the list: a hundred times the exact sum of its values, to the nearest whole number,
/// a half away from zero. `values` are encodings, one to a word in its low bits; `bias` is the one
/// that the format names, or `None` for the kind's own.
///
/// # Errors
///
/// The code of a refusal, which [`Refusal::from_code`](crate::Refusal::from_code) reads: 3, 6, 7
/// plus 256 times a place, or 8, the first that holds. What they mean is said at
/// [`Totals::pence`](crate::Totals::pence).
///
/// Proved: the contract of `totals_pence` in `crates/totals/src/entry.rt`; `pence-by-chain`,
/// `pence-order`, `one-pence`, `sum-pence-refused-exactly`, `pence-place` in
/// `crates/totals_spec/proofs`.
///
/// ```
/// use fermuzhai::raw;
///
/// // 0.125 is 12.5 pence, and 2^−24 less is a little less, in binary16
/// assert_eq!(raw::pence([0, 5, 16], None, &[0x3000]), Ok(13));
/// assert_eq!(raw::pence([0, 5, 16], None, &[0x3000, 0x8001]), Ok(12));
/// // with a bias of 25, 0x5800 is 2^(22 − 25)
/// assert_eq!(raw::pence([0, 5, 16], Some(25), &[0x5800]), Ok(13));
/// // a NaN; and a stray bit behind it, at index 1
/// assert_eq!(raw::pence([0, 5, 16], None, &[0x7e00]), Err(8));
/// assert_eq!(raw::pence([0, 5, 16], None, &[0x7e00, 0x1_0000]), Err(7 + 256));
/// ```
pub fn pence(f: Format, bias: Option<i64>, values: &[u64]) -> Result<i64, u64> {
    let mut figure = 0;
    // SAFETY: the pointer to the values comes with the count of the slice that it is taken from,
    // and `figure` is this call's own. Of the numbers nothing is asked.
    let code = unsafe {
        entry::totals_pence(
            f[0],
            f[1],
            f[2],
            bias.is_some().into(),
            bias.unwrap_or(0),
            values.as_ptr(),
            values.len(),
            &mut figure,
        )
    };
    if code == 0 {
        Ok(figure)
    } else {
        Err(code)
    }
}

/// The plain sums of the rows, of the columns and of all cells of a table. `cells` are encodings,
/// row after row; `bias` is as in [`pence`]. `totals` are two lists, for the totals of the rows and
/// for those of the columns.
///
/// Returns 0, writes the totals in front of the two lists and the record of all cells to bytes 0 to
/// 23 of the answer, as [`sum`] does; what lies beyond stays as it was. Or returns a refusal's code
/// and writes nothing at all: 2, 3, 4, 6, 9, 10, or 7 plus 256 times a place, the first that holds
/// in this order. What they mean is said at [`Totals::table_into`](crate::Totals::table_into).
///
/// Proved: the contract of `totals_table` in `crates/totals/src/entry.rt`; `table-row`,
/// `table-column`, `table-grand`, `table-untouched`, `table-refused-exactly`, `table-entry-refused`
/// in `crates/figures_spec/proofs`.
///
/// ```
/// use fermuzhai::raw;
///
/// // 1 2 3 and 1 1 1, in binary16
/// let cells = [0x3c00, 0x4000, 0x4200, 0x3c00, 0x3c00, 0x3c00];
/// let (mut rows, mut columns, mut answer) = ([7; 3], [7; 3], [0; 24]);
/// let mut table = |shape, cells: &[u64]| {
///     raw::table([0, 5, 16], None, [0; 8], shape, cells, [&mut rows, &mut columns], &mut answer)
/// };
/// assert_eq!(table([2, 3], &cells), 0);
/// assert_eq!(table([4, 2], &cells), 9); // 8 is not 6
/// assert_eq!(table([6, 1], &cells), 10); // there is room for three rows
/// assert_eq!(table([1 << 32, 1 << 32], &[]), 9); // 2^64 is not 0
/// assert_eq!(rows, [0x4600, 0x4200, 7]); // 6 and 3, and a word that stays
/// assert_eq!(columns, [0x4000, 0x4200, 0x4400]); // 2, 3 and 4
/// assert_eq!(answer[..2], [0x80, 0x48]); // 9
/// ```
#[must_use = "the totals are written only where 0 is returned"]
pub fn table(
    f: Format,
    bias: Option<i64>,
    c: Settings,
    shape: Shape,
    cells: &[u64],
    totals: [&mut [u64]; 2],
    answer: &mut [u8],
) -> u64 {
    let [row_totals, column_totals] = totals;
    // SAFETY: each pointer comes with the length of the slice that it is taken from, and the three
    // that are borrowed for writing lie apart from each other and from `cells`. Of the numbers
    // nothing is asked.
    unsafe {
        enter!(
            totals_table; f[0], f[1], f[2], bias.is_some().into(), bias.unwrap_or(0); c;
            shape[0], shape[1], cells.as_ptr(), cells.len(), row_totals.as_mut_ptr(),
            row_totals.len(), column_totals.as_mut_ptr(), column_totals.len(),
            answer.as_mut_ptr(), answer.len()
        )
    }
}

/// The lower and the upper total of amounts known within a range. `tags` say of each entry whether
/// its amount is the first figure (0), lies between the first and the second (1), or is missing
/// (2), and then lies between zero and the ceiling. Figures and ceiling are encodings of binary64.
/// Those that an entry does not use may be any words: the second of a known one, both of a missing
/// one.
///
/// Returns 0 and writes the two totals to `pair`, whose later words stay as they were. The low of
/// each entry is then left in `first` and its high in `second`. So only figures that are not used
/// change, and the lists stand for the same entries. Or returns a refusal's code and writes nothing
/// at all: 2 where `pair` has fewer than two words, else 5 where the lists differ in length, 6 or
/// 11. What these mean is said at [`range`](crate::range).
///
/// Proved: the contract of `totals_range` in `crates/totals/src/entry.rt`; `range-holds`,
/// `range-narrowest`, `range-zero`, `range-order`, `range-refused-exactly`, `range-entry-refused`,
/// `range-entries-kept` in `crates/figures_spec/proofs`.
///
/// ```
/// use fermuzhai::raw;
///
/// let [low, high, ceiling] = [-100f64, 200.0, 1000.0].map(f64::to_bits);
/// // between −100 and 200; and a missing amount, with a NaN and a stray word for its figures
/// let (tags, mut first, mut second) = ([1, 2], [low, 0x7ff8 << 48], [high, 7]);
/// let mut pair = [7; 3];
/// assert_eq!(raw::range(&tags, &mut first, &mut second, ceiling, &mut pair), 0);
/// assert_eq!(pair, [(-100f64).to_bits(), 1200f64.to_bits(), 7]);
/// // the missing amount is one from +0 to the ceiling
/// assert_eq!(first, [low, 0]);
/// assert_eq!(second, [high, ceiling]);
///
/// assert_eq!(raw::range(&[3], &mut [0], &mut [0], ceiling, &mut pair), 11);
/// assert_eq!(raw::range(&[0], &mut [0], &mut [], ceiling, &mut pair), 5);
/// ```
#[must_use = "the pair is written only where 0 is returned"]
pub fn range(
    tags: &[u64],
    first: &mut [u64],
    second: &mut [u64],
    ceiling: u64,
    pair: &mut [u64],
) -> u64 {
    // SAFETY: each pointer comes with the length of the slice that it is taken from, and the three
    // that are borrowed for writing lie apart from each other and from `tags`. Of the numbers
    // nothing is asked.
    unsafe {
        entry::totals_range(
            tags.as_ptr(),
            tags.len(),
            first.as_mut_ptr(),
            first.len(),
            second.as_mut_ptr(),
            second.len(),
            ceiling,
            pair.as_mut_ptr(),
            pair.len(),
        )
    }
}

/// The sum of a span of a career page: of the values from the index `start` up to the index `end`,
/// itself left out. Summand and answer are those of [`sum`], and so is the record, that of these
/// values as a list of their own.
///
/// Returns and writes as [`sum`] does. Its refusals are 2 where the answer has fewer than 24 bytes,
/// 12 where the page does not open, 13 where the span starts above its end or ends above the page's
/// count, and 4, the first that holds in this order. Every call looks at the whole page;
/// [`Page`](crate::Page) does so once.
///
/// Proved: the contract of `totals_page_sum` in `crates/totals/src/entry.rt`; `page-span`,
/// `page-span-read`, `page-empty`, `page-entry-refused-exactly`, `page-entry-refused`,
/// `page-entry-read-back` in `crates/pages_spec/proofs`.
///
/// ```
/// use fermuzhai::raw;
///
/// let mut page = [0; 52];
/// let values = [1.5f64, 2.0, 0.25].map(f64::to_bits);
/// assert_eq!(raw::page_write(&values, &mut page), Ok(52));
/// let mut answer = [0; 24];
/// assert_eq!(raw::page_sum(&page, 1, 3, [0; 8], 0, &mut answer), 0);
/// assert_eq!(answer[..8], 2.25f64.to_le_bytes());
/// assert_eq!(raw::page_sum(&page, 1, 4, [0; 8], 0, &mut answer), 13);
/// assert_eq!(raw::page_sum(&page[1..], 1, 3, [0; 8], 0, &mut answer), 12);
/// ```
#[must_use = "the answer is written only where 0 is returned"]
pub fn page_sum(
    page: &[u8],
    start: usize,
    end: usize,
    c: Settings,
    summand: u64,
    answer: &mut [u8],
) -> u64 {
    // SAFETY: each pointer comes with the length of the slice that it is taken from, and `answer`,
    // being borrowed for writing, lies apart from `page`. Of the numbers nothing is asked.
    unsafe {
        enter!(
            totals_page_sum; page.as_ptr(), page.len(), start, end; c;
            summand, answer.as_mut_ptr(), answer.len()
        )
    }
}

/// Writes the career page of some values, encodings of binary64, in front of `page`. Returns its
/// length; what lies beyond stays as it was.
///
/// # Errors
///
/// The code of a refusal, and nothing is written: 2 where `page` is shorter than the page would be,
/// for any number of values, else 6 where there are more than 268,435,456 of them.
///
/// Proved: the contract of `totals_page_write` in `crates/totals/src/entry.rt`; `page-opens`,
/// `page-beyond`, `page-refused`, `page-refused-exactly`, `page-length` in
/// `crates/pages_spec/proofs`.
///
/// ```
/// use fermuzhai::raw;
///
/// let mut page = [7; 17];
/// assert_eq!(raw::page_write(&[], &mut page), Ok(16));
/// assert_eq!(page, *b"\0\0\0\0\0\0\0\0\x40\0\0\0CPG1\x07");
/// assert_eq!(raw::page_write(&[0], &mut page), Err(2));
/// ```
pub fn page_write(values: &[u64], page: &mut [u8]) -> Result<usize, u64> {
    // SAFETY: each pointer comes with the length of the slice that it is taken from, and `page`,
    // being borrowed for writing, lies apart from `values`.
    let code = unsafe {
        entry::totals_page_write(values.as_ptr(), values.len(), page.as_mut_ptr(), page.len())
    };
    // an accepted call answers 256 times the length
    if code % 256 == 0 {
        Ok((code / 256) as usize)
    } else {
        Err(code)
    }
}

/// The sum of the values, rounded once into each of three targets. `values` are eight bytes each,
/// as of [`sum`], and `bias` is as in [`pence`]. `targets` are three times thirteen numbers of
/// eight bytes, the least byte first: kind, exponent bits, width, 1 where the format names its bias
/// or else 0, the bias in two's complement, and the eight settings.
///
/// Returns 0 and writes 32 bytes for each target: a refusal, plus 256 times its place, in eight
/// bytes, and behind it the 24 of an answer of [`sum`], zeros where the target is refused. What
/// lies behind byte 95 stays as it was. A target's refusals are 3, 4, 6, 7 and 17, the first that
/// holds; what they mean is said at [`Totals::sum_into`](crate::Totals::sum_into). 3 is also that
/// the fourth number of a target is above 1, or is 0 beside a bias that is not; and 4 that
/// `denormals_are_zero` is above 1, or a setting of the target is out of its range.
///
/// Or returns 1, where the targets are not 312 bytes or the values no multiple of 8, of kind 4 of
/// 10, or 2, where the answer has fewer than 96, and writes nothing.
///
/// Proved: the contract of `totals_sum_into` in `crates/totals/src/entry.rt`; `target-rounds`,
/// `target-entry-refusal`, `target-entry-refused`, `target-entry-order`, `target-entry-read-back`
/// in `crates/totals_spec/proofs` and `crates/targets_spec/proofs`.
///
/// ```
/// use fermuzhai::{raw, Format, Target};
///
/// // 1 and 2^−11 in binary16; into the same, the same with a bias of −3, and binary32
/// let formats = [Format::BINARY16, Format::BINARY16.with_bias(-3), Format::BINARY32];
/// let numbers = formats.map(|format| <[u64; 13]>::from(Target::new(format)));
/// assert_eq!(numbers[1][..5], [0, 5, 16, 1, -3i64 as u64]);
/// let (targets, values) = (raw::bytes(numbers.as_flattened()), raw::bytes(&[0x3c00, 0x1000]));
///
/// let mut answer = [7; 97];
/// assert_eq!(raw::sum_into([0, 5, 16], None, 0, &targets, &values, &mut answer), 0);
/// assert_eq!(answer[..11], [0, 0, 0, 0, 0, 0, 0, 0, 0x00, 0x3c, 0]); // 1, of a tie
/// assert_eq!(answer[40..42], [0x40, 0x00]); // 64 times its least number, 2^−6
/// assert_eq!(answer[64..72], 17u64.to_le_bytes()); // 24 digits are more than 11
/// assert_eq!(answer[72..], [[0; 24].as_slice(), &[7]].concat());
///
/// assert_eq!(raw::sum_into([0, 5, 16], None, 0, &targets[1..], &values, &mut answer), 1);
/// assert_eq!(raw::sum_into([0, 5, 16], None, 0, &targets, &values, &mut answer[..95]), 2);
/// ```
#[must_use = "the answer is written only where 0 is returned"]
pub fn sum_into(
    f: Format,
    bias: Option<i64>,
    denormals_are_zero: u64,
    targets: &[u8],
    values: &[u8],
    answer: &mut [u8],
) -> u64 {
    // SAFETY: each pointer comes with the length of the slice that it is taken from, and `answer`,
    // being borrowed for writing, lies apart from the other two. Of the numbers nothing is asked.
    unsafe {
        entry::totals_sum_into(
            f[0],
            f[1],
            f[2],
            bias.is_some().into(),
            bias.unwrap_or(0),
            denormals_are_zero,
            targets.as_ptr(),
            targets.len(),
            values.as_ptr(),
            values.len(),
            answer.as_mut_ptr(),
            answer.len(),
        )
    }
}

/// [`sum`] within an allowance of passes. `bias` is as in [`pence`].
///
/// Returns 0 and writes 144 bytes, numbers with the little end first and in two's complement: the
/// result in 0..7, the flags in 8, the mark in 9, the side in 10, the boundary's sign, 1 for minus,
/// in 11, zeros in 12..15, the passes in 16..23, the last edge in 24..31, the boundary's whole
/// number in 32..39, the position of its unit in 40..47, S in 48..143. What lies behind stays as it
/// was.
///
/// A mark of 0 is a full answer: bytes 0 to 23 are those of [`sum`], the last edge is that of its
/// last pass or 0 where there was none, and the rest is 0. A mark of 1 is an unfinished one:
/// result, flags and side are 0, the passes are the allowance, and S counts units of 2^(last edge).
/// What it says is told at [`Unfinished`](crate::Unfinished).
///
/// Or returns a refusal's code and writes nothing: 1, of kind 4 too of a length that is no multiple
/// of ten, 2 under 144 bytes of answer, 16 of an allowance of 0, and then those of [`sum`], the
/// first that holds in this order. 3 is also kind 4.
///
/// Proved: the contract of `totals_sum_within` in `crates/targets/src/entry_within.rt`;
/// `within-in-time`, `within-unfinished`, `within-near`, `within-entry-refusal`,
/// `within-entry-refused`, `within-entry-read-back`, `within-entry-plain` in
/// `crates/targets_spec/proofs`.
///
/// ```
/// use fermuzhai::raw;
///
/// // 2^1000, 1 and −2^1000: the first pass, at 298, has nothing left, and a second finds the 1
/// let values = raw::bytes(&[0x7e70 << 48, 0x3ff0 << 48, 0xfe70 << 48]);
/// let mut answer = [7; 145];
/// let mut within = |allowance, answer: &mut [u8]| {
///     raw::sum_within([0, 11, 64], None, [0; 8], 0, allowance, &values, answer)
/// };
/// assert_eq!(within(1, &mut answer), 0);
/// assert_eq!(answer[..16], [0, 0, 0, 0, 0, 0, 0, 0, 0, 1, 0, 0, 0, 0, 0, 0]);
/// assert_eq!(answer[16..32], [1u64.to_le_bytes(), 298u64.to_le_bytes()].concat());
/// assert_eq!(answer[32..], [[0; 112].as_slice(), &[7]].concat());
///
/// assert_eq!(within(2, &mut answer), 0);
/// assert_eq!(answer[..8], 1.0f64.to_le_bytes());
/// assert_eq!(answer[9], 0);
/// assert_eq!(within(0, &mut answer), 16);
/// assert_eq!(within(0, &mut answer[..143]), 2);
/// ```
#[must_use = "the answer is written only where 0 is returned"]
pub fn sum_within(
    f: Format,
    bias: Option<i64>,
    c: Settings,
    summand: u64,
    allowance: u64,
    values: &[u8],
    answer: &mut [u8],
) -> u64 {
    // SAFETY: as in `sum`.
    unsafe {
        enter!(
            totals_sum_within; f[0], f[1], f[2], bias.is_some().into(), bias.unwrap_or(0); c;
            summand, allowance, values.as_ptr(), values.len(), answer.as_mut_ptr(), answer.len()
        )
    }
}

/// [`dot`] within an allowance of passes. Returns and writes as [`sum_within`] does, with 5 behind
/// 4.
///
/// Proved: the contract of `totals_dot_within` in `crates/targets/src/entry_within.rt`, and the
/// theorems named there.
///
/// ```
/// use fermuzhai::raw;
///
/// // 2^500 × 2^500, and beside it 2^−500 × 2^−500
/// let values = raw::bytes(&[0x5f30 << 48, 0x20b0 << 48]);
/// let mut answer = [0; 144];
/// assert_eq!(raw::dot_within([0, 11, 64], None, [0; 8], 1, &values, &values, &mut answer), 0);
/// assert_eq!((answer[9], answer[24..32].to_vec()), (1, 299i64.to_le_bytes().to_vec()));
/// assert_eq!(answer[48 + 701 / 8], 1 << (701 % 8)); // S is 2^701, in units of 2^299
/// assert_eq!(raw::dot_within([0, 11, 64], None, [0; 8], 1, &values, &[], &mut answer), 5);
/// ```
#[must_use = "the answer is written only where 0 is returned"]
pub fn dot_within(
    f: Format,
    bias: Option<i64>,
    c: Settings,
    allowance: u64,
    left: &[u8],
    right: &[u8],
    answer: &mut [u8],
) -> u64 {
    // SAFETY: as in `dot`.
    unsafe {
        enter!(
            totals_dot_within; f[0], f[1], f[2], bias.is_some().into(), bias.unwrap_or(0); c;
            allowance, left.as_ptr(), left.len(), right.as_ptr(), right.len(),
            answer.as_mut_ptr(), answer.len()
        )
    }
}

/// The contribution that reaches a target: the least finite number with which, behind the values,
/// their plain sum is the wanted total. `values` are encodings of a format of kind 0, one to a word
/// in its low bits, and `wanted` is one too; `bias` is as in [`pence`].
///
/// Returns 0 and writes the encoding of the number to bytes 0 to 7 of the answer, the least byte
/// first; what lies behind stays as it was. Or returns a refusal's code and writes nothing: 2 under
/// eight bytes of answer, 3, 4, 6, 7 plus 256 times a place, 15 or 14, the first that holds in this
/// order. What they mean is said at [`Totals::contribution`](crate::Totals::contribution). 3 is
/// also any kind but 0, and 4 a flush to zero or a denormals-are-zero that is not 0.
///
/// Proved: the contract of `totals_contribution` in `crates/targets/src/entry_contribution.rt`;
/// `contribution-least`, `contribution-none`, `contribution-entry-refusal`,
/// `contribution-entry-refused`, `contribution-entry-read-back`, `contribution-entry-order` in
/// `crates/targets_spec/proofs`.
///
/// ```
/// use fermuzhai::raw;
///
/// // 1 in binary16: with −2^−12 behind it the sum is a tie, and goes to 1
/// let mut answer = [7; 9];
/// assert_eq!(raw::contribution([0, 5, 16], None, [0; 8], 0x3c00, &[0x3c00], &mut answer), 0);
/// assert_eq!(answer, [0x00, 0x8c, 0, 0, 0, 0, 0, 0, 7]);
///
/// // to three digits no sum is the next number, and a NaN is none
/// let three = [0, 0, 0, 0, 0, 0, 0, 3];
/// let mut wanting = |wanted| {
///     raw::contribution([0, 5, 16], None, three, wanted, &[0x3c00], &mut answer)
/// };
/// assert_eq!(wanting(0x3c01), 14);
/// assert_eq!(wanting(0x7e00), 15);
/// assert_eq!(wanting(0x1_0000), 7 + 256); // behind the list of one value
/// ```
#[must_use = "the number is written only where 0 is returned"]
pub fn contribution(
    f: Format,
    bias: Option<i64>,
    c: Settings,
    wanted: u64,
    values: &[u64],
    answer: &mut [u8],
) -> u64 {
    // SAFETY: each pointer comes with the length of the slice that it is taken from, and `answer`,
    // being borrowed for writing, lies apart from `values`. Of the numbers nothing is asked.
    unsafe {
        enter!(
            totals_contribution; f[0], f[1], f[2], bias.is_some().into(), bias.unwrap_or(0); c;
            wanted, values.as_ptr(), values.len(), answer.as_mut_ptr(), answer.len()
        )
    }
}

/// Values as the byte entries read them: eight bytes a value, the least byte first.
#[must_use]
pub fn bytes(values: &[u64]) -> Vec<u8> {
    u64::bytes(values).into_owned()
}
