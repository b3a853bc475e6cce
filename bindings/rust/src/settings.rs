use core::num::NonZeroU8;

/// How the exact sum is rounded.
#[derive(Clone, Copy, Debug, Default, PartialEq, Eq, Hash)]
#[non_exhaustive]
#[repr(u8)]
pub enum Rounding {
    /// To the nearest; a tie goes to the even significand.
    #[default]
    TiesToEven = 0,
    /// To the nearest; a tie goes away from zero.
    TiesToAway = 1,
    /// To the nearest; a tie goes toward zero.
    TiesTowardZero = 2,
    /// Toward positive infinity.
    TowardPositive = 3,
    /// Toward negative infinity.
    TowardNegative = 4,
    /// Toward zero.
    TowardZero = 5,
    /// Away from zero.
    AwayFromZero = 6,
    /// An inexact sum goes to the neighbour whose last bit is 1.
    ToOdd = 7,
}

/// When a non-zero sum counts as tiny.
#[derive(Clone, Copy, Debug, Default, PartialEq, Eq, Hash)]
#[repr(u8)]
pub enum Tininess {
    /// The exact sum is below the least normal number.
    #[default]
    BeforeRounding = 0,
    /// The sum, rounded without a limit on its exponent, is below the least normal number.
    AfterRounding = 1,
}

/// Which NaN of a list is the result.
#[derive(Clone, Copy, Debug, Default, PartialEq, Eq, Hash)]
#[non_exhaustive]
#[repr(u8)]
pub enum NanPropagation {
    /// The first signaling one, else the first.
    #[default]
    SignalingFirst = 0,
    /// The first.
    FirstOperand = 1,
    /// A quiet one before a signaling one, and of those the one with the larger significand.
    LargerSignificand = 2,
    /// None of them: the default NaN.
    DefaultNan = 3,
}

/// What of each value is summed.
#[derive(Clone, Copy, Debug, Default, PartialEq, Eq, Hash)]
#[non_exhaustive]
#[repr(u8)]
pub enum Summand {
    /// The value.
    #[default]
    Value = 0,
    /// Its magnitude.
    Magnitude = 1,
    /// Its square.
    Square = 2,
}

/// How a total is taken. [`Settings::new`] has every number 0, every switch off. What each means
/// exactly stands in `docs/SPECIFICATION.md` of the repository.
///
/// ```
/// use fermuzhai::{Rounding, Settings, Totals};
///
/// // 24 digits, toward zero
/// let settings = Settings::new()
///     .with_rounding(Rounding::TowardZero)
///     .with_precision(24);
/// let record = Totals::<f64>::new().with_settings(settings).sum(&[1.0, 0.1])?;
/// assert_eq!(record.result, 1.0999999046325684);
/// # Ok::<(), fermuzhai::Refusal>(())
/// ```
#[derive(Clone, Copy, Debug, Default, PartialEq, Eq, Hash)]
#[non_exhaustive]
pub struct Settings {
    /// How the exact sum is rounded.
    pub rounding: Rounding,
    /// When a non-zero sum counts as tiny.
    pub tininess: Tininess,
    /// Which NaN of a list is the result.
    pub nan_propagation: NanPropagation,
    /// The default NaN has its sign bit set.
    pub default_nan_negative: bool,
    /// A tiny sum becomes a zero of its sign.
    pub flush_to_zero: bool,
    /// A subnormal value counts as a zero of its sign.
    pub denormals_are_zero: bool,
    /// A sum that is too large becomes the largest number, not an infinity or a NaN.
    pub saturate: bool,
    /// The digits to round to, at most those of the format; `None` is the format's.
    pub precision: Option<NonZeroU8>,
}

impl Settings {
    /// Ties to even, tininess before rounding, a signaling NaN first, every switch off, and no
    /// precision of its own.
    #[must_use]
    pub const fn new() -> Self {
        Self {
            rounding: Rounding::TiesToEven,
            tininess: Tininess::BeforeRounding,
            nan_propagation: NanPropagation::SignalingFirst,
            default_nan_negative: false,
            flush_to_zero: false,
            denormals_are_zero: false,
            saturate: false,
            precision: None,
        }
    }

    /// The same with another rounding.
    #[must_use]
    pub const fn with_rounding(self, rounding: Rounding) -> Self {
        Self { rounding, ..self }
    }

    /// The same with another rule for tininess.
    #[must_use]
    pub const fn with_tininess(self, tininess: Tininess) -> Self {
        Self { tininess, ..self }
    }

    /// The same with another rule for NaNs.
    #[must_use]
    pub const fn with_nan_propagation(self, nan_propagation: NanPropagation) -> Self {
        Self {
            nan_propagation,
            ..self
        }
    }

    /// The same with another sign of the default NaN.
    #[must_use]
    pub const fn with_default_nan_negative(self, default_nan_negative: bool) -> Self {
        Self {
            default_nan_negative,
            ..self
        }
    }

    /// The same with flush to zero on or off.
    #[must_use]
    pub const fn with_flush_to_zero(self, flush_to_zero: bool) -> Self {
        Self {
            flush_to_zero,
            ..self
        }
    }

    /// The same with denormals-are-zero on or off.
    #[must_use]
    pub const fn with_denormals_are_zero(self, denormals_are_zero: bool) -> Self {
        Self {
            denormals_are_zero,
            ..self
        }
    }

    /// The same with saturation on or off.
    #[must_use]
    pub const fn with_saturate(self, saturate: bool) -> Self {
        Self { saturate, ..self }
    }

    /// The same, rounded to so many digits; 0 is the format's own.
    ///
    /// More digits than [`Format::digits`](crate::Format::digits) are refused when a total is
    /// taken, with [`Refusal::PrecisionOutOfRange`](crate::Refusal::PrecisionOutOfRange).
    #[must_use]
    pub const fn with_precision(self, digits: u8) -> Self {
        Self {
            precision: NonZeroU8::new(digits),
            ..self
        }
    }
}

/// The numbers that the entries of [`raw`](crate::raw) take.
impl From<Settings> for [u64; 8] {
    fn from(c: Settings) -> Self {
        [
            c.rounding as u64,
            c.tininess as u64,
            c.nan_propagation as u64,
            c.default_nan_negative.into(),
            c.flush_to_zero.into(),
            c.denormals_are_zero.into(),
            c.saturate.into(),
            c.precision.map_or(0, |digits| digits.get().into()),
        ]
    }
}
