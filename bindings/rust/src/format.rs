/// How a format encodes what is not a number.
#[derive(Clone, Copy, Debug, PartialEq, Eq, Hash)]
#[non_exhaustive]
#[repr(u8)]
pub enum Kind {
    /// Infinities and NaNs as in IEEE 754.
    Ieee = 0,
    /// No infinity; a NaN has every bit but the sign set.
    NoInf = 1,
    /// No infinity and no −0, whose pattern is the NaN. Its own bias is one larger than that of
    /// the other kinds.
    Fnuz = 2,
    /// Neither infinity nor NaN.
    Finite = 3,
    /// Infinities and NaNs as in IEEE 754, in 80 bits that write the leading digit out: of
    /// [`X87`](crate::X87) alone, in [`Format::EXTENDED`].
    X87 = 4,
}

/// A binary floating-point format of at most 64 bits, or [`Format::EXTENDED`]. What its encodings
/// stand for is said in `docs/SPECIFICATION.md` of the repository.
///
/// Any numbers can be written down here: the library judges them at each call, and refuses a
/// format that it does not have with [`Refusal::NoSuchFormat`](crate::Refusal::NoSuchFormat).
///
/// ```
/// use fermuzhai::{Format, Kind};
///
/// assert_eq!(Format::BINARY64, Format::new(Kind::Ieee, 11, 64));
/// ```
///
/// Two formats are equal where every field is. So a format that names its kind's own bias is not
/// equal to one that names none, though every total of the two is the same:
///
/// ```
/// use fermuzhai::{Format, Totals};
///
/// let (half, named) = (Format::BINARY16, Format::BINARY16.with_bias(15));
/// assert_ne!(named, half);
/// assert_eq!(named.bias(), half.bias());
/// assert_eq!(Totals::of(named).square_sum(&[0x1234]), Totals::of(half).square_sum(&[0x1234]));
/// ```
///
/// Proved: `named-own` in `crates/totals_spec/proofs`.
#[derive(Clone, Copy, Debug, PartialEq, Eq, Hash)]
#[non_exhaustive]
pub struct Format {
    /// How infinities, NaNs and zeros are encoded.
    pub kind: Kind,
    /// The width of the exponent field, E: 2 to 28.
    pub exponent_bits: u8,
    /// The whole width, W: E + 2 to 64, or 80 of [`Kind::X87`]. A significand has W − E digits, of
    /// [`Kind::X87`] one less.
    pub width: u8,
    /// The bias, where the format names one; `None` is the kind's own.
    pub named_bias: Option<i64>,
}

impl Format {
    /// The format of `f64`.
    pub const BINARY64: Self = Self::new(Kind::Ieee, 11, 64);
    /// The format of `f32`.
    pub const BINARY32: Self = Self::new(Kind::Ieee, 8, 32);
    /// IEEE half precision.
    pub const BINARY16: Self = Self::new(Kind::Ieee, 5, 16);
    /// bfloat16: the upper half of a binary32.
    pub const BFLOAT16: Self = Self::new(Kind::Ieee, 8, 16);
    /// TF32, in 19 bits.
    pub const TF32: Self = Self::new(Kind::Ieee, 8, 19);
    /// OCP FP8 E5M2.
    pub const E5M2: Self = Self::new(Kind::Ieee, 5, 8);
    /// OCP FP8 E4M3.
    pub const E4M3: Self = Self::new(Kind::NoInf, 4, 8);
    /// FP8 E5M2FNUZ.
    pub const E5M2_FNUZ: Self = Self::new(Kind::Fnuz, 5, 8);
    /// FP8 E4M3FNUZ.
    pub const E4M3_FNUZ: Self = Self::new(Kind::Fnuz, 4, 8);
    /// OCP MX FP6 E3M2.
    pub const E3M2: Self = Self::new(Kind::Finite, 3, 6);
    /// OCP MX FP6 E2M3.
    pub const E2M3: Self = Self::new(Kind::Finite, 2, 6);
    /// OCP MX FP4 E2M1.
    pub const E2M1: Self = Self::new(Kind::Finite, 2, 4);

    /// The format of [`X87`](crate::X87): 80 bits, 64 digits, and no bias that it names. Its
    /// encodings fit no word, so that each total of [`Totals::of`](crate::Totals::of) it is refused
    /// with [`Refusal::NoSuchFormat`](crate::Refusal::NoSuchFormat).
    pub const EXTENDED: Self = Self::new(Kind::X87, 15, 80);

    /// The farthest from 0, on either side, that a named bias can be: 268,435,456.
    pub const FARTHEST_BIAS: i64 = 268_435_456;

    /// A format by its numbers, with its kind's own bias.
    #[must_use]
    pub const fn new(kind: Kind, exponent_bits: u8, width: u8) -> Self {
        Self {
            kind,
            exponent_bits,
            width,
            named_bias: None,
        }
    }

    /// The same with a bias that it names.
    ///
    /// The least normal number is then 2^(1 − bias). The exponent of the greatest is 2^E − 2 − bias
    /// in [`Kind::Ieee`] and 2^E − 1 − bias in the other kinds. [`Kind::X87`] has no named bias. 1
    /// need not be a number of the format.
    ///
    /// A bias that is farther from 0 than [`Format::FARTHEST_BIAS`] is refused when a total is
    /// taken, with [`Refusal::NoSuchFormat`](crate::Refusal::NoSuchFormat).
    ///
    /// ```
    /// use fermuzhai::{Format, Kind, Totals};
    ///
    /// // rates below 2 in eight bits: 0x70 is 2^(14 − 15), a half, and 0x68 a quarter
    /// let rates = Format::new(Kind::Finite, 4, 8).with_bias(15);
    /// assert_eq!(Totals::of(rates).square_sum(&[0x70])?.result, 0x68);
    ///
    /// // with the kind's own bias, 7, it is 128, whose square is far above the largest number, 480
    /// let own = Format::new(Kind::Finite, 4, 8);
    /// assert_eq!(Totals::of(own).square_sum(&[0x70])?.result, 0x7f);
    /// # Ok::<(), fermuzhai::Refusal>(())
    /// ```
    #[must_use]
    pub const fn with_bias(self, bias: i64) -> Self {
        Self {
            named_bias: Some(bias),
            ..self
        }
    }

    /// The bias: the one that is named, else the kind's own, 2^(E − 1) − 1 and in [`Kind::Fnuz`]
    /// 2^(E − 1).
    ///
    /// ```
    /// use fermuzhai::Format;
    ///
    /// assert_eq!(Format::BINARY16.bias(), 15);
    /// assert_eq!(Format::E4M3_FNUZ.bias(), 8);
    /// assert_eq!(Format::BINARY16.with_bias(-40).bias(), -40);
    /// ```
    #[must_use]
    pub const fn bias(self) -> i64 {
        let half = 2i64.saturating_pow(self.exponent_bits.saturating_sub(1) as u32);
        match (self.named_bias, self.kind) {
            (Some(bias), _) => bias,
            (None, Kind::Fnuz) => half,
            (None, _) => half - 1,
        }
    }

    /// The digits of a significand, the most that a precision can be: W − E, and W − E − 1 of
    /// [`Kind::X87`], whose encodings leave no digit out.
    ///
    /// ```
    /// use fermuzhai::Format;
    ///
    /// assert_eq!(Format::BINARY64.digits(), 53);
    /// assert_eq!(Format::EXTENDED.digits(), 64);
    /// ```
    #[must_use]
    pub const fn digits(self) -> u8 {
        let beside = self.width.saturating_sub(self.exponent_bits);
        match self.kind {
            // the sign takes a bit, and no digit is left out
            Kind::X87 => beside.saturating_sub(1),
            _ => beside,
        }
    }
}

/// The numbers that the entries of [`raw`](crate::raw) take. A named bias is none of them: it is an
/// argument of its own.
impl From<Format> for [u64; 3] {
    fn from(f: Format) -> Self {
        [f.kind as u64, f.exponent_bits.into(), f.width.into()]
    }
}
