use alloc::vec;
use alloc::vec::Vec;
use core::ops::{Bound, RangeBounds};

use crate::value::sealed::Word as _;
use crate::{raw, Record, Refusal, Settings, Summand, Totals, MOST_ELEMENTS};

/// The most values of a page with a short trailer.
const MOST_SHORT: usize = 1 << 20;

/// A career page: `f64` values in bytes that say of themselves what they hold, to be opened many
/// times and asked for the totals of spans.
///
/// The values lie in front, eight bytes each, the least byte first. Behind them lie a summary of
/// each 64 values, of twelve bytes, and a trailer: of sixteen bytes that ends in the letters
/// `CPG1`, or, of more than 1,048,576 values, of 24 that ends in `CPG2`. `docs/SPECIFICATION.md` of
/// the repository has the layout. A page opens where every byte is what [`Page::write`] would have
/// written for its values. A reader that knows `CPG1` alone refuses the longer pages, and opens all
/// others.
///
/// ```
/// use fermuzhai::{Page, Refusal};
///
/// let written = Page::write(&[0.5, 1e100, 1.0, -1e100])?;
/// let page = Page::open(&written)?;
/// assert_eq!(page.len(), 4);
/// assert_eq!(page.sum(..)?.result, 1.5);
/// assert_eq!(page.sum(1..3)?.result, 1e100);
/// assert_eq!(page.sum(2..2)?.result, 0.0);
/// assert_eq!(page.sum(2..5), Err(Refusal::BadSpan));
/// # Ok::<(), Refusal>(())
/// ```
///
/// A page is opened once: it borrows its bytes, so they stay what they were, and a span then costs
/// what its own values cost.
#[derive(Clone, Copy, Debug, PartialEq, Eq, Hash)]
#[must_use = "it was opened to be summed"]
pub struct Page<'a> {
    /// The bytes of the values.
    values: &'a [u8],
}

impl<'a> Page<'a> {
    /// Opens a page: every summary is compared with what the values give. Nothing is copied.
    ///
    /// The bytes may lie at any address, and have any length: there is no
    /// [`Refusal::UnevenLength`] of a page.
    ///
    /// # Errors
    ///
    /// [`Refusal::NotAPage`] where the bytes are no page, or one of more than 268,435,456 values.
    ///
    /// Proved: the contract of `totals_page_sum` in `crates/totals/src/entry.rt`; `page-opens`,
    /// `page-only`, `page-range`, `page-both`, `page-earlier`, `page-span-refused-exactly` in
    /// `crates/pages_spec/proofs`.
    ///
    /// ```
    /// use fermuzhai::{Page, Refusal};
    ///
    /// let mut written = Page::write(&[3.0])?;
    /// assert!(Page::open(&written).is_ok());
    /// // the highest set bit of 3 stands at 1, and not at 2
    /// written[8] = 2;
    /// assert_eq!(Page::open(&written), Err(Refusal::NotAPage));
    /// assert_eq!(Page::open(b"CPG1"), Err(Refusal::NotAPage));
    /// # Ok::<(), Refusal>(())
    /// ```
    pub fn open(bytes: &'a [u8]) -> Result<Self, Refusal> {
        let plain = Settings::new().into();
        // the empty span at the start: what is left to refuse is the page
        let code = raw::page_sum(bytes, 0, 0, plain, 0, &mut [0; 24]);
        match (Refusal::from_code(code), values_in(bytes)) {
            (None, Some(values)) => Ok(Self { values }),
            (refusal, _) => Err(refusal.unwrap_or(Refusal::NotAPage)),
        }
    }

    /// The number of values.
    #[must_use]
    pub const fn len(&self) -> usize {
        self.values.len() / 8
    }

    /// Whether there is no value.
    #[must_use]
    pub const fn is_empty(&self) -> bool {
        self.values.is_empty()
    }

    /// The values of a span, with every bit that they were written with.
    ///
    /// # Errors
    ///
    /// [`Refusal::BadSpan`] where the span starts above its end, or ends above [`Page::len`].
    ///
    /// ```
    /// use fermuzhai::{Page, Refusal};
    ///
    /// let written = Page::write(&[0.5, 2.0, -1.0])?;
    /// let page = Page::open(&written)?;
    /// assert!(page.values(1..)?.eq([2.0, -1.0]));
    /// assert_eq!(page.values(..)?.rev().next(), Some(-1.0));
    /// # Ok::<(), Refusal>(())
    /// ```
    pub fn values(
        &self,
        span: impl RangeBounds<usize>,
    ) -> Result<impl ExactSizeIterator<Item = f64> + DoubleEndedIterator + 'a, Refusal> {
        // each chunk has eight bytes
        let value = |bytes: &[u8]| f64::from_le_bytes(bytes.try_into().unwrap_or_default());
        Ok(self.part(span)?.chunks_exact(8).map(value))
    }

    /// The exact sum of the values of a span, rounded once to the nearest, ties to even: what
    /// [`sum`](crate::sum) gives for them as a list of their own. An empty span is +0.
    ///
    /// [`Totals::page_sum`] takes other settings, and sums magnitudes and squares.
    ///
    /// # Errors
    ///
    /// [`Refusal::BadSpan`] where the span starts above its end, or ends above [`Page::len`].
    ///
    /// Proved: those of [`Totals::page_sum`].
    ///
    /// ```
    /// use fermuzhai::{Page, Refusal};
    ///
    /// let written = Page::write(&[0.1; 24])?;
    /// let page = Page::open(&written)?;
    /// assert_eq!(page.sum(12..24)?, fermuzhai::sum(&[0.1; 12])?);
    /// assert_eq!(page.sum(..=23)?, page.sum(..)?);
    /// assert_eq!(page.sum(..25), Err(Refusal::BadSpan));
    /// # Ok::<(), Refusal>(())
    /// ```
    pub fn sum(&self, span: impl RangeBounds<usize>) -> Result<Record<f64>, Refusal> {
        Totals::new().page_sum(Summand::Value, self, span)
    }

    /// The page of the values, each with every bit that it has: NaNs and the signs of zeros are
    /// kept.
    ///
    /// # Errors
    ///
    /// [`Refusal::TooManyElements`] where there are more than 268,435,456 values. No memory is
    /// taken for them.
    ///
    /// Proved: the contract of `totals_page_write` in `crates/totals/src/entry.rt`; `page-opens`,
    /// `page-length`, `page-summary`, `page-summarizes`, `page-as-before`, `page-longer` in
    /// `crates/pages_spec/proofs`.
    ///
    /// ```
    /// let page = fermuzhai::Page::write(&[3.0])?;
    /// assert_eq!(page[..8], 3f64.to_le_bytes());
    /// // the highest set bit of 3 stands at 1, the lowest at 0; it is no NaN, infinity or zero
    /// assert_eq!(page[8..20], [1, 0, 0, 0, 0, 0, 0, 0, 0, 0, 0, 0]);
    /// // the summaries begin at byte 8; one value; groups of 64
    /// assert_eq!(page[20..], *b"\x08\0\0\0\x01\0\0\0\x40\0\0\0CPG1");
    /// # Ok::<(), fermuzhai::Refusal>(())
    /// ```
    pub fn write(values: &[f64]) -> Result<Vec<u8>, Refusal> {
        let length = Self::length_of(values.len()).ok_or(Refusal::TooManyElements)?;
        let mut page = vec![0; length];
        Self::write_into(values, &mut page)?;
        Ok(page)
    }

    /// [`Page::write`] into bytes of the caller's. Returns the page's length.
    ///
    /// The page lies in front of `destination`. What lies beyond stays as it was, and a refused
    /// call leaves every byte so.
    ///
    /// # Errors
    ///
    /// [`Refusal::ShortBuffer`] where `destination` is shorter than the page would be, also where
    /// there are too many values; else [`Refusal::TooManyElements`] where there are more than
    /// 268,435,456.
    ///
    /// Proved: the contract of `totals_page_write` in `crates/totals/src/entry.rt`; `page-opens`,
    /// `page-beyond`, `page-refused`, `page-refused-exactly`, `page-length` in
    /// `crates/pages_spec/proofs`.
    ///
    /// ```
    /// use fermuzhai::{Page, Refusal};
    ///
    /// let mut destination = [7; 40];
    /// assert_eq!(Page::write_into(&[3.0], &mut destination), Ok(36));
    /// assert!(Page::open(&destination[..36]).is_ok());
    /// assert_eq!(destination[36..], [7; 4]);
    ///
    /// let refused = Page::write_into(&[3.0], &mut destination[..35]);
    /// assert_eq!(refused, Err(Refusal::ShortBuffer));
    /// ```
    pub fn write_into(values: &[f64], destination: &mut [u8]) -> Result<usize, Refusal> {
        raw::page_write(&f64::encodings(values), destination)
            .map_err(|code| Refusal::from_code(code).unwrap_or(Refusal::Unknown { code }))
    }

    /// The length in bytes of the page of so many values: 8 for each, 12 for each 64 of them or
    /// fewer, and 16 for the trailer, or 24 where there are more than 1,048,576 values. `None` of
    /// more than 268,435,456, of which there is no page.
    ///
    /// Proved: `page-length` in `crates/pages_spec/proofs`.
    ///
    /// ```
    /// use fermuzhai::Page;
    ///
    /// assert_eq!(Page::length_of(0), Some(16));
    /// assert_eq!(Page::length_of(480), Some(3952));
    /// assert_eq!(Page::length_of(1_048_576), Some(8_585_232));
    /// assert_eq!(Page::length_of(1_048_577), Some(8_585_260));
    /// assert_eq!(Page::length_of(usize::MAX), None);
    /// ```
    #[must_use]
    pub const fn length_of(count: usize) -> Option<usize> {
        if count > MOST_ELEMENTS {
            return None;
        }
        let trailer = if count > MOST_SHORT { 24 } else { 16 };
        Some(8 * count + 12 * count.div_ceil(64) + trailer)
    }

    /// The bytes of the values of a span.
    pub(crate) fn part(&self, span: impl RangeBounds<usize>) -> Result<&'a [u8], Refusal> {
        let start = match span.start_bound() {
            Bound::Included(&first) => Some(first),
            Bound::Excluded(&before) => before.checked_add(1),
            Bound::Unbounded => Some(0),
        };
        let end = match span.end_bound() {
            Bound::Included(&last) => last.checked_add(1),
            Bound::Excluded(&after) => Some(after),
            Bound::Unbounded => Some(self.len()),
        };
        match (start, end) {
            (Some(start), Some(end)) if start <= end && end <= self.len() => {
                Ok(&self.values[8 * start..8 * end])
            }
            // one behind the last index of all is above every count
            _ => Err(Refusal::BadSpan),
        }
    }
}

/// The bytes of the values of a page that opens: they end where its trailer says that the summaries
/// begin.
fn values_in(page: &[u8]) -> Option<&[u8]> {
    let end = match page.last_chunk()? {
        b"CPG1" => u32::from_le_bytes(*page.last_chunk::<16>()?.first_chunk()?).into(),
        b"CPG2" => u64::from_le_bytes(*page.last_chunk::<24>()?.first_chunk()?),
        _ => return None,
    };
    page.get(..usize::try_from(end).ok()?)
}
