use alloc::vec::Vec;

use crate::value::sealed::Value as _;
use crate::{raw, Format, Record, Refusal, Settings, Totals, Word};

/// What a total is rounded into: a format, with settings of its own.
///
/// [`Target::new`], and a [`Format`] by itself, has the settings of [`Settings::new`].
///
/// ```
/// use fermuzhai::{Format, Rounding, Settings, Target};
///
/// let down = Settings::new().with_rounding(Rounding::TowardNegative);
/// let target = Target::new(Format::BINARY16).with_settings(down);
/// assert_eq!(target.format.digits(), 11);
/// assert_eq!(Target::from(Format::BINARY16), Target::new(Format::BINARY16));
/// ```
///
/// Denormals-are-zero is about reading: it is the list's, and that of a target has no effect. Nor
/// has the choice of a NaN, since a list with one is refused.
#[derive(Clone, Copy, Debug, PartialEq, Eq, Hash)]
#[non_exhaustive]
pub struct Target {
    /// The format, of at most the digits of the list's. Its exponents may reach farther or less
    /// far, on either side.
    pub format: Format,
    /// How the sum is rounded into it.
    pub settings: Settings,
}

impl Target {
    /// A format with the settings of [`Settings::new`].
    #[must_use]
    pub const fn new(format: Format) -> Self {
        Self {
            format,
            settings: Settings::new(),
        }
    }

    /// The same format with other settings.
    #[must_use]
    pub const fn with_settings(self, settings: Settings) -> Self {
        Self { settings, ..self }
    }

    /// What the entry left for this target: its refusal, then the words of an answer.
    fn read(self, [code, result, marks, passes]: [[u8; 8]; 4]) -> Result<Record<u64>, Refusal> {
        match Refusal::from_code(u64::from_le_bytes(code)) {
            Some(refusal) => Err(refusal.with_setting(self.format, self.settings)),
            None => Ok(u64::record(&[result, marks, passes, [0; 8]])),
        }
    }
}

impl From<Format> for Target {
    fn from(format: Format) -> Self {
        Self::new(format)
    }
}

/// The numbers that [`raw::sum_into`] takes: kind, exponent bits, width, 1 where the format names
/// its bias, the bias, and the eight settings.
impl From<Target> for [u64; 13] {
    fn from(target: Target) -> Self {
        let named = target.format.named_bias;
        let [kind, exponent_bits, width] = target.format.into();
        let [c0, c1, c2, c3, c4, c5, c6, c7] = target.settings.into();
        // a bias below zero in two's complement
        let bias = named.unwrap_or(0) as u64;
        let is_named = named.is_some().into();
        [
            kind,
            exponent_bits,
            width,
            is_named,
            bias,
            c0,
            c1,
            c2,
            c3,
            c4,
            c5,
            c6,
            c7,
        ]
    }
}

/// One total, several formats.
impl<T: Word> Totals<T> {
    /// The sum of the values, rounded once into each of the targets: a record, or a refusal, for
    /// each, in their order.
    ///
    /// Each is what a call with this target alone gives. The exact sum itself is rounded, never one
    /// that was rounded before. The result is an encoding of the target's format; the passes, and
    /// [`Flags::SUBNORMAL_INPUT`](crate::Flags::SUBNORMAL_INPUT), are those of the list. In the
    /// list's own format the record is that of [`Totals::sum`] under the target's settings and this
    /// list's denormals-are-zero.
    ///
    /// Of the settings of these totals denormals-are-zero alone is heard. A sum of zero has the
    /// sign that the target's rounding gives it.
    ///
    /// The library takes three targets at a time, and sums the list once for these. The memory that
    /// is taken is that of the records, and of lists of `f32` a copy.
    ///
    /// # Errors
    ///
    /// A target that is refused does not touch the others. Of each the first of these that holds:
    ///
    /// - [`Refusal::NoSuchFormat`], where the library does not have the list's format or the
    ///   target's, or one of them names a bias out of its range
    /// - [`Refusal::PrecisionOutOfRange`], of the target's precision and format
    /// - [`Refusal::TooManyElements`], of more than 268,435,456 values
    /// - [`Refusal::StrayBit`], of an encoding that is wider than the list's format
    /// - [`Refusal::TargetOutOfReach`], where the target has more digits than the list's format, or
    ///   the list holds a NaN or an infinity
    ///
    /// Proved: the contract of `totals_sum_into` in `crates/totals/src/entry.rt`; `target-rounds`,
    /// `target-zero`, `target-exact`, `target-own`, `target-order`, `target-refusal` in
    /// `crates/totals_spec/proofs` and `crates/targets_spec/proofs`.
    ///
    /// ```
    /// use fermuzhai::{Format, Refusal, Rounding, Settings, Target, Totals};
    ///
    /// // 1 and 2^−11 and 2^−24 in half precision, into eight bits; toward positive; into 24 digits
    /// let up = Settings::new().with_rounding(Rounding::TowardPositive);
    /// let targets = [
    ///     Target::new(Format::E5M2),
    ///     Target::new(Format::E5M2).with_settings(up),
    ///     Target::new(Format::BINARY32),
    /// ];
    /// let halves = Totals::of(Format::BINARY16);
    /// let records = halves.sum_into(&[0x3c00, 0x1000, 0x0001], &targets);
    /// assert_eq!(records[0]?.result, 0x3c); // 1
    /// assert_eq!(records[1]?.result, 0x3d); // 1.25
    /// assert_eq!(records[2], Err(Refusal::TargetOutOfReach)); // a list of half precision has 11
    /// # Ok::<(), Refusal>(())
    /// ```
    #[must_use]
    pub fn sum_into(&self, values: &[T], targets: &[Target]) -> Vec<Result<Record<u64>, Refusal>> {
        let values = self.lent(values);
        let mut records = Vec::with_capacity(targets.len());
        for group in targets.chunks(3) {
            let entered = self.enter(&values, group);
            let each = group.iter().enumerate();
            records.extend(each.map(|(i, target)| target.read(entered?[i])));
        }
        records
    }

    /// One call of the entry, and the 32 bytes that it left for each target. A group of fewer than
    /// three, which is never empty, is filled up with its last.
    fn enter(&self, values: &[u8], group: &[Target]) -> Result<[[[u8; 8]; 4]; 3], Refusal> {
        let numbers = [0, 1, 2].map(|i| <[u64; 13]>::from(group[i.min(group.len() - 1)]));
        let mut answer = [[[0; 8]; 4]; 3];
        let code = raw::sum_into(
            self.format().into(),
            self.format().named_bias,
            self.settings().denormals_are_zero.into(),
            &u64::bytes(numbers.as_flattened()),
            values,
            answer.as_flattened_mut().as_flattened_mut(),
        );
        // three targets, whole values and room: only another archive would refuse the call itself
        Refusal::from_code(code).map_or(Ok(answer), Err)
    }
}
