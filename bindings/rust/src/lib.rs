#![doc = include_str!("../README.md")]
#![cfg_attr(not(test), no_std)]

extern crate alloc;

use alloc::vec::Vec;

mod contribution;
mod format;
mod into;
mod page;
mod range;
pub mod raw;
mod record;
mod refusal;
mod settings;
mod table;
mod totals;
mod value;
mod within;
mod x87;

pub use format::{Format, Kind};
pub use into::Target;
pub use page::Page;
pub use range::{range, Amount};
pub use record::{Flags, Record, Side};
pub use refusal::{List, Refusal};
pub use settings::{NanPropagation, Rounding, Settings, Summand, Tininess};
pub use table::Table;
pub use totals::Totals;
pub use value::{Float, Value, Word};
pub use within::{Boundary, Estimate, Unfinished, Units};
pub use x87::X87;

/// The most elements of a list, cells of a table, amounts of a range and values of a page.
const MOST_ELEMENTS: usize = 1 << 28;

/// The exact sum of the values, rounded once to the nearest, ties to even.
///
/// A list of `f64` or [`X87`] is read where it lies; one of `f32` is copied first, eight bytes a
/// value.
///
/// # Errors
///
/// [`Refusal::TooManyElements`] where there are more than 268,435,456 values.
///
/// Proved: `sum-exact`, `sum-entry-order`, and of [`X87`] `extended-exact`, `extended-call-order`,
/// in `crates/totals_spec/proofs`.
///
/// ```
/// use fermuzhai::sum;
///
/// // a running total loses the 1
/// assert_eq!(1e100 + 1.0 - 1e100, 0.0);
/// assert_eq!(sum(&[1e100, 1.0, -1e100])?.result, 1.0);
/// # Ok::<(), fermuzhai::Refusal>(())
/// ```
///
/// Of finite values whose total is neither zero nor NaN, the negated list has the negated total,
/// with the same flags and passes. [`Totals::sum`] says how it is under other roundings.
///
/// ```
/// use fermuzhai::sum;
///
/// let (total, negated) = (sum(&[0.1, 0.2])?, sum(&[-0.1, -0.2])?);
/// assert_eq!(negated.result, -total.result);
/// assert_eq!((negated.flags, negated.passes), (total.flags, total.passes));
/// # Ok::<(), fermuzhai::Refusal>(())
/// ```
///
/// Proved: `sum-mirror`, in the same file.
pub fn sum<T: Float>(values: &[T]) -> Result<Record<T>, Refusal> {
    Totals::new().sum(values)
}

/// The exact sum of the magnitudes, rounded once to the nearest, ties to even.
///
/// # Errors
///
/// [`Refusal::TooManyElements`] where there are more than 268,435,456 values.
///
/// Proved: `sum-exact`, `sum-entry-order`, and of [`X87`] `extended-exact`, `extended-call-order`,
/// in `crates/totals_spec/proofs`.
///
/// ```
/// assert_eq!(fermuzhai::magnitude_sum(&[1.5, -2.0])?.result, 3.5);
/// # Ok::<(), fermuzhai::Refusal>(())
/// ```
pub fn magnitude_sum<T: Float>(values: &[T]) -> Result<Record<T>, Refusal> {
    Totals::new().magnitude_sum(values)
}

/// The exact sum of the squares, rounded once to the nearest, ties to even.
///
/// # Errors
///
/// [`Refusal::TooManyElements`] where there are more than 268,435,456 values.
///
/// Proved: `sum-exact`, `sum-entry-order`, and of [`X87`] `extended-exact`, `extended-call-order`,
/// in `crates/totals_spec/proofs`.
///
/// ```
/// assert_eq!(fermuzhai::square_sum(&[3.0, -4.0])?.result, 25.0);
/// # Ok::<(), fermuzhai::Refusal>(())
/// ```
///
/// Without a NaN it is the dot product of the list with itself, record for record:
///
/// ```
/// use fermuzhai::{dot, square_sum};
///
/// let list = [0.1, -0.2, f64::NEG_INFINITY];
/// assert_eq!(square_sum(&list)?, dot(&list, &list)?);
/// # Ok::<(), fermuzhai::Refusal>(())
/// ```
///
/// Proved: `square-dot`, in the same file.
pub fn square_sum<T: Float>(values: &[T]) -> Result<Record<T>, Refusal> {
    Totals::new().square_sum(values)
}

/// The exact sum of the products of the pairs, rounded once to the nearest, ties to even.
///
/// # Errors
///
/// [`Refusal::DifferentLengths`] where the lists have two lengths, else
/// [`Refusal::TooManyElements`] where there are more than 268,435,456 pairs.
///
/// Proved: `dot-exact`, `dot-entry-order`, and of [`X87`] `extended-exact`, `extended-call-order`,
/// in `crates/totals_spec/proofs`.
///
/// ```
/// let (left, right) = ([1e200, 3.0, -1e200], [1e200, 0.5, 1e200]);
/// assert_eq!(fermuzhai::dot(&left, &right)?.result, 1.5);
/// # Ok::<(), fermuzhai::Refusal>(())
/// ```
pub fn dot<T: Float>(left: &[T], right: &[T]) -> Result<Record<T>, Refusal> {
    Totals::new().dot(left, right)
}

/// The pence of the list: a hundred times the exact sum of its values, to the nearest whole number,
/// a half away from zero.
///
/// The sum is not rounded to a float in between, so half a penny is told from a little less, beside
/// amounts of any size that cancel too. A list of `f64` is read where it lies; one of `f32` is
/// copied first, eight bytes a value.
///
/// # Errors
///
/// [`Refusal::TooManyElements`] where there are more than 268,435,456 values, else
/// [`Refusal::NoPence`] where one is a NaN or an infinity, or the figure's magnitude is 2^63 or
/// more.
///
/// Proved: `pence-by-chain`, `pence-order`, `one-pence` in
/// `crates/totals_spec/proofs`.
///
/// ```
/// use fermuzhai::{pence, sum, Refusal};
///
/// assert_eq!(pence(&[0.125])?, 13);
/// assert_eq!(pence(&[-0.125])?, -13);
///
/// // a little less than 12.5 pence, which the rounded sum does not show
/// let less = [0.125, -2f64.powi(-60)];
/// assert_eq!(pence(&less)?, 12);
/// assert_eq!(sum(&less)?.result, 0.125);
///
/// assert_eq!(pence(&[1.0, f64::NAN]), Err(Refusal::NoPence));
/// # Ok::<(), fermuzhai::Refusal>(())
/// ```
pub fn pence<T: Float + Word>(values: &[T]) -> Result<i64, Refusal> {
    Totals::new().pence(values)
}

/// The exact sum of each row, of each column and of all cells of a table, each rounded once to the
/// nearest, ties to even. The cells are one list, row after row.
///
/// Each total is what [`sum`] gives for its own cells. The sum of all cells is that of the cells,
/// not of totals that were rounded.
///
/// # Errors
///
/// The first of these that holds: [`Refusal::TooManyElements`] where there are more than
/// 268,435,456 cells; [`Refusal::BadShape`] where `rows` times `columns` is not the number of
/// cells; [`Refusal::NoRoom`] where there are no cells, and more than 1,048,576 rows or columns.
/// [`Totals::table_into`] lends lists of the caller's, and has no such bound.
///
/// Proved: `table-row`, `table-column`, `table-grand`, `table-refused-exactly` in
/// `crates/figures_spec/proofs`.
///
/// ```
/// use fermuzhai::{table, Refusal};
///
/// // two members, three months
/// let cells = [
///     0.5, 1e100, -1e100, //
///     0.25, 1.0, 2.0,
/// ];
/// let totals = table(&cells, 2, 3)?;
/// assert_eq!(totals.rows, [0.5, 3.25]);
/// assert_eq!(totals.columns, [0.75, 1e100, -1e100]);
/// assert_eq!(totals.grand.result, 3.75);
///
/// assert_eq!(table(&cells, 3, 3), Err(Refusal::BadShape));
/// # Ok::<(), fermuzhai::Refusal>(())
/// ```
pub fn table<T: Float + Word>(
    cells: &[T],
    rows: usize,
    columns: usize,
) -> Result<Table<T>, Refusal> {
    Totals::new().table(cells, rows, columns)
}

/// The exact sum of the values, rounded once into each of the targets: a record, or a refusal, for
/// each, in their order. [`Target::new`] rounds to the nearest, ties to even.
///
/// The exact sum itself is rounded each time. A sum that was rounded to `f64` first can lie on a
/// tie of a shorter format where the exact one does not. [`Totals::sum_into`] takes encodings of
/// any format, and counts subnormal values as zeros where it is asked to.
///
/// # Errors
///
/// A target that is refused does not touch the others. Of each the first of these that holds:
/// [`Refusal::NoSuchFormat`] where the library does not have the target's format, or it names a
/// bias out of its range; [`Refusal::PrecisionOutOfRange`]; [`Refusal::TooManyElements`] where
/// there are more than 268,435,456 values; [`Refusal::TargetOutOfReach`] where the target has more
/// digits than `T`, or a value is a NaN or an infinity.
///
/// Proved: the contract of `totals_sum_into` in `crates/totals/src/entry.rt`; `target-rounds`,
/// `target-zero`, `target-exact`, `target-own`, `target-order`, `target-refusal` in
/// `crates/totals_spec/proofs` and `crates/targets_spec/proofs`.
///
/// ```
/// use fermuzhai::{sum, sum_into, Flags, Format, Refusal, Target};
///
/// // 1, 2^−11 and 2^−70: a little more than a tie of half precision
/// let list = [1.0, 2f64.powi(-11), 2f64.powi(-70)];
/// let targets = [Format::BINARY16, Format::BINARY32, Format::BINARY64].map(Target::new);
/// let records = sum_into(&list, &targets);
/// assert_eq!(records[0]?.result, 0x3c01);
/// assert_eq!(records[0]?.flags, Flags::INEXACT | Flags::ROUNDED_UP);
/// assert_eq!(records[1]?.result, 0x3f80_1000);
/// assert_eq!(records[2]?.result, 0x3ff0_0200_0000_0000);
/// assert_eq!(records[2]?.flags, Flags::INEXACT);
///
/// // by way of f64 it is the tie, and goes to the even neighbour
/// let twice = sum_into(&[sum(&list)?.result], &targets[..1]);
/// assert_eq!(twice[0]?.result, 0x3c00);
///
/// let records = sum_into(&[1.0, f64::NAN], &targets);
/// assert_eq!(records, [Err(Refusal::TargetOutOfReach); 3]);
/// # Ok::<(), Refusal>(())
/// ```
#[must_use]
pub fn sum_into<T: Float + Word>(
    values: &[T],
    targets: &[Target],
) -> Vec<Result<Record<u64>, Refusal>> {
    Totals::<T>::new().sum_into(values, targets)
}

/// What must be added to reach a total: the least finite number with which, behind the values,
/// [`sum`] has the wanted total for its result.
///
/// The number is the most negative one that does. Where the wanted total is below what the list
/// comes to, it is an amount that goes back. Where zero is the answer it is +0. At most 65 sums are
/// taken for it. A list of `f64` is read where it lies; one of `f32` is copied first, eight bytes a
/// value.
///
/// # Errors
///
/// The first of these that holds: [`Refusal::TooManyElements`] where there are 268,435,456 values
/// or more, since one is added; [`Refusal::NotFinite`] where a value or the wanted total is a NaN
/// or an infinity; [`Refusal::NoContribution`] where no finite number does it.
///
/// Proved: the contract of `totals_contribution` in `crates/targets/src/entry_contribution.rt`;
/// `contribution-least`, `contribution-none`, `contribution-rises`, `contribution-refusal`,
/// `contribution-order` in `crates/targets_spec/proofs`.
///
/// ```
/// use fermuzhai::{contribution, sum, Refusal};
///
/// // four months are paid: what must the fifth be, for 1000 in all?
/// let paid: [f64; 4] = [250.0, 250.0, 250.0, 99.99];
/// let due = contribution(&paid, 1000.0)?;
/// assert_eq!(format!("{due:.2}"), "150.01");
///
/// let total = |last| sum(&[&paid[..], &[last]].concat()).map(|record| record.result);
/// assert_eq!(total(due)?, 1000.0);
/// assert!(total(f64::from_bits(due.to_bits() - 1))? < 1000.0);
///
/// // with −2^1000 the sum is 2^−1000, and with the next double 2^947 and that
/// let apart = [2f64.powi(1000), 2f64.powi(-1000)];
/// assert_eq!(contribution(&apart, 1.0), Err(Refusal::NoContribution));
/// assert_eq!(contribution(&apart, f64::INFINITY), Err(Refusal::NotFinite));
/// # Ok::<(), Refusal>(())
/// ```
pub fn contribution<T: Float + Word>(values: &[T], wanted: T) -> Result<T, Refusal> {
    Totals::new().contribution(values, wanted)
}

/// The exact sum of the values, rounded once to the nearest, ties to even, if its chain of passes
/// ends within the allowance; else what the last pass allowed has seen, which has bounds.
///
/// A pass is a walk over the list. Most lists take one. More are needed where values lie some 700
/// binary places apart or farther, and the large ones cancel, or the sum is very near to where a
/// rounding turns. [`Record::passes`] says how many a list has taken.
///
/// # Errors
///
/// [`Refusal::NoPassAllowed`] where the allowance is 0, else [`Refusal::TooManyElements`] where
/// there are more than 268,435,456 values.
///
/// Proved: the contract of `totals_sum_within` in `crates/targets/src/entry_within.rt`;
/// `within-in-time`, `within-same`, `within-unfinished`, `within-near`, `within-narrower`,
/// `within-order` in `crates/targets_spec/proofs`.
///
/// ```
/// use fermuzhai::{sum, sum_within, Estimate, Refusal};
///
/// let list = [3.0, 2f64.powi(-1000), 0.25];
/// let first = sum_within(&list, 1)?.unfinished().unwrap();
/// assert_eq!(first.bounds(), (3.25 - 2.0 * f64::EPSILON, 3.25 + 2.0 * f64::EPSILON));
///
/// assert_eq!(sum_within(&list, 2)?, Estimate::Full(sum(&list)?));
/// assert_eq!(sum_within(&list, u64::MAX)?, Estimate::Full(sum(&list)?));
/// assert_eq!(sum_within(&list, 0), Err(Refusal::NoPassAllowed));
/// # Ok::<(), Refusal>(())
/// ```
pub fn sum_within<T: Float + Word>(values: &[T], allowance: u64) -> Result<Estimate<T>, Refusal> {
    Totals::new().sum_within(values, allowance)
}

/// The exact sum of the products of the pairs, rounded once, within an allowance of passes, as of
/// [`sum_within`].
///
/// # Errors
///
/// The first of these that holds: [`Refusal::NoPassAllowed`] where the allowance is 0;
/// [`Refusal::DifferentLengths`] where the lists have two lengths; [`Refusal::TooManyElements`]
/// where there are more than 268,435,456 pairs.
///
/// Proved: the contract of `totals_dot_within` in `crates/targets/src/entry_within.rt`, and the
/// theorems of [`sum_within`].
///
/// ```
/// use fermuzhai::{dot, dot_within, Estimate};
///
/// let (left, right) = ([1e200, 3.0, -1e200], [1e200, 0.5, 1e200]);
/// let seen = dot_within(&left, &right, 1)?.unfinished().unwrap();
/// assert!(seen.sum.is_zero());
/// assert!(seen.bounds().0 < 1.5 && 1.5 < seen.bounds().1);
/// assert_eq!(dot_within(&left, &right, 2)?, Estimate::Full(dot(&left, &right)?));
/// # Ok::<(), fermuzhai::Refusal>(())
/// ```
pub fn dot_within<T: Float + Word>(
    left: &[T],
    right: &[T],
    allowance: u64,
) -> Result<Estimate<T>, Refusal> {
    Totals::new().dot_within(left, right, allowance)
}
