use alloc::vec::Vec;

use crate::{raw, Refusal, MOST_ELEMENTS};

/// An amount that is known, or known within a range.
///
/// ```
/// use fermuzhai::Amount::{self, *};
///
/// let months: [Amount; 3] = [Known(412.25), Between(400.0, 450.0), Missing];
/// assert_eq!(fermuzhai::range(&months, 500.0)?, (812.25, 1362.25));
/// # Ok::<(), fermuzhai::Refusal>(())
/// ```
#[derive(Clone, Copy, Debug, PartialEq)]
pub enum Amount {
    /// It is this.
    Known(f64),
    /// It lies between the first figure and the second, or is one of them.
    Between(f64, f64),
    /// It lies between zero and the ceiling of the call, or is one of them.
    Missing,
}

impl Amount {
    /// The tag and the figures as the library reads them, +0 for one that is not used.
    const fn words(self) -> [u64; 3] {
        match self {
            Self::Known(amount) => [0, amount.to_bits(), 0],
            Self::Between(low, high) => [1, low.to_bits(), high.to_bits()],
            Self::Missing => [2, 0, 0],
        }
    }
}

/// The lower and the upper total of amounts known within a range: every sum that the ranges allow
/// lies on one of the two or between, and of two that are nearer to each other this is not true.
///
/// So the lower total is the greatest double, or −∞, that is not above the exact sum of the lows,
/// and the upper one the least, or +∞, that is not below that of the highs. A missing amount has a
/// low of zero and `ceiling` for its high. A total of zero is +0, and an empty list has two. Every
/// order of the amounts gives the same totals. The amounts are copied, 24 bytes each.
///
/// # Errors
///
/// [`Refusal::TooManyElements`] where there are more than 268,435,456 amounts, and no memory is
/// taken for them; else [`Refusal::BadAmount`] where a figure is a NaN or an infinity, or a low is
/// above its high (−0 and +0 are equal), or where the ceiling is a NaN, infinite or below zero,
/// even where no amount is missing. A ceiling of −0 is accepted.
///
/// Proved: the contract of `totals_range` in `crates/totals/src/entry.rt`; `range-holds`,
/// `range-narrowest`, `range-zero`, `range-order`, `range-refused-exactly` in
/// `crates/figures_spec/proofs`.
///
/// ```
/// use fermuzhai::{range, Amount::*, Refusal};
///
/// let (lower, upper) = range(&[Between(-100.0, 200.0), Missing], 1000.0)?;
/// assert_eq!((lower, upper), (-100.0, 1200.0));
///
/// // 1 and 2^−53 come to no double, but lie between two neighbours
/// assert_eq!(range(&[Known(1.0), Known(2f64.powi(-53))], 0.0)?, (1.0, 1.0 + f64::EPSILON));
///
/// assert_eq!(range(&[Between(2.0, 1.0)], 0.0), Err(Refusal::BadAmount));
/// assert_eq!(range(&[Known(1.0)], -1.0), Err(Refusal::BadAmount));
/// # Ok::<(), fermuzhai::Refusal>(())
/// ```
pub fn range(amounts: &[Amount], ceiling: f64) -> Result<(f64, f64), Refusal> {
    if amounts.len() > MOST_ELEMENTS {
        return Err(Refusal::TooManyElements);
    }
    let list = |which: usize| -> Vec<u64> {
        let words = amounts.iter().map(|amount| amount.words());
        words.map(|words| words[which]).collect()
    };
    let (tags, mut first, mut second) = (list(0), list(1), list(2));
    let mut pair = [0; 2];
    let ceiling = ceiling.to_bits();
    let code = raw::range(&tags, &mut first, &mut second, ceiling, &mut pair);
    match Refusal::from_code(code) {
        None => Ok(pair.map(f64::from_bits).into()),
        Some(refusal) => Err(refusal),
    }
}
