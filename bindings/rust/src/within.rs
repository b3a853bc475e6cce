use core::fmt::{self, Display, Formatter};
use core::hash::{Hash, Hasher};

use crate::{raw, Record, Refusal, Summand, Totals, Value, Word};

/// What a total within an allowance of passes comes to: the whole record, or what the last pass
/// allowed has seen.
///
/// A full answer is the same for every larger allowance. Of unfinished ones a larger allowance
/// never has a wider bound.
///
/// ```
/// use fermuzhai::{sum, sum_within, Estimate};
///
/// let list = [1.0, 2f64.powi(-53), 2f64.powi(-1000)];
/// assert_eq!(sum_within(&list, 2)?, Estimate::Full(sum(&list)?));
///
/// let Estimate::Unfinished(first) = sum_within(&list, 1)? else { unreachable!() };
/// assert_eq!(first.bounds(), (1.0, 1.0 + f64::EPSILON));
/// # Ok::<(), fermuzhai::Refusal>(())
/// ```
#[derive(Clone, Copy, Debug)]
#[must_use = "what the passes allowed have seen is in it"]
pub enum Estimate<T> {
    /// The chain ended in time: the record of the total.
    Full(Record<T>),
    /// It did not.
    Unfinished(Unfinished),
}

impl<T: Value> Estimate<T> {
    /// The record of a full answer.
    ///
    /// ```
    /// use fermuzhai::sum_within;
    ///
    /// assert_eq!(sum_within(&[0.5, 0.25], 1)?.full().map(|record| record.result), Some(0.75));
    /// assert_eq!(sum_within(&[1e300, 1e-300], 1)?.full(), None);
    /// # Ok::<(), fermuzhai::Refusal>(())
    /// ```
    #[must_use]
    pub const fn full(self) -> Option<Record<T>> {
        match self {
            Self::Full(record) => Some(record),
            Self::Unfinished(_) => None,
        }
    }

    /// What the last pass allowed has seen, where the chain did not end.
    #[must_use]
    pub const fn unfinished(self) -> Option<Unfinished> {
        match self {
            Self::Full(_) => None,
            Self::Unfinished(seen) => Some(seen),
        }
    }

    /// The passes that were taken, or counted: those of the record, or else the allowance.
    #[must_use]
    pub const fn passes(&self) -> u64 {
        match self {
            Self::Full(record) => record.passes,
            Self::Unfinished(seen) => seen.passes,
        }
    }
}

/// As of a [`Record`]: results by their encodings.
impl<T: Value> PartialEq for Estimate<T> {
    fn eq(&self, other: &Self) -> bool {
        match (self, other) {
            (Self::Full(one), Self::Full(other)) => one == other,
            (Self::Unfinished(one), Self::Unfinished(other)) => one == other,
            _ => false,
        }
    }
}

impl<T: Value> Eq for Estimate<T> {}

impl<T: Value> Hash for Estimate<T> {
    fn hash<H: Hasher>(&self, state: &mut H) {
        match self {
            Self::Full(record) => record.hash(state),
            Self::Unfinished(seen) => seen.hash(state),
        }
    }
}

/// A record, or `between LOWER and UPPER, passes N`, by the precision that is asked for.
///
/// ```
/// use fermuzhai::sum_within;
///
/// let list = [2.0, 2f64.powi(-1000)];
/// assert_eq!(format!("{:.3}", sum_within(&list, 1)?), "between 2.000 and 2.000, passes 1");
/// assert_eq!(format!("{:.3}", sum_within(&list, 2)?), "2.000, flags INEXACT, passes 2");
/// # Ok::<(), fermuzhai::Refusal>(())
/// ```
impl<T: Value> Display for Estimate<T> {
    fn fmt(&self, out: &mut Formatter<'_>) -> fmt::Result {
        match self {
            Self::Full(record) => Display::fmt(record, out),
            Self::Unfinished(seen) => Display::fmt(seen, out),
        }
    }
}

/// What the last pass allowed has seen, where the chain of passes does not end with it.
///
/// The sum S in units of 2^`last_edge`, plus the boundary where there is one, is a first figure. It
/// is off from the exact sum by fewer of these units than there are terms, and these are at most
/// the elements of the list. [`Unfinished::bounds`] has the exact sum between two doubles.
///
/// Proved: `within-near`, `within-narrower`, `within-order`, `within-fits` in
/// `crates/targets_spec/proofs`. The doubles are worked out by this crate.
#[derive(Clone, Copy, Debug, PartialEq, Eq, Hash)]
#[non_exhaustive]
pub struct Unfinished {
    /// The allowance.
    pub passes: u64,
    /// The position of the lowest digit that the last pass allowed looks at: that of the bit worth
    /// 1 is 0.
    pub last_edge: i64,
    /// S of this pass, in units of 2^`last_edge`.
    pub sum: Units,
    /// What this pass was compared against, where an earlier one has set it. S is then the sum less
    /// the boundary.
    pub boundary: Option<Boundary>,
    /// The elements of the list, or the pairs of a dot. There are at most so many terms: a zero is
    /// none.
    pub elements: usize,
}

/// A whole number of units, with a sign.
///
/// ```
/// use fermuzhai::sum_within;
///
/// let seen = sum_within(&[-2f64.powi(1023), 5e-324], 1)?.unfinished().unwrap();
/// assert!(seen.sum.is_negative);
/// assert_eq!(seen.sum.bit_length(), 703); // −2^702, in units of 2^321
/// assert_eq!(seen.sum.magnitude[10], 1 << 62);
/// assert_eq!((seen.last_edge, seen.sum.to_i128()), (321, None));
/// # Ok::<(), fermuzhai::Refusal>(())
/// ```
#[derive(Clone, Copy, Debug, PartialEq, Eq, Hash)]
#[non_exhaustive]
pub struct Units {
    /// Whether it is below zero.
    pub is_negative: bool,
    /// The magnitude, the least word first: at most 2^767, and that below zero alone.
    pub magnitude: [u64; 12],
}

impl Units {
    /// From two's complement.
    fn from_words(words: [u64; 12]) -> Self {
        let is_negative = is_below_zero(&words);
        let mut magnitude = words;
        if is_negative {
            negate(&mut magnitude);
        }
        Self {
            is_negative,
            magnitude,
        }
    }

    /// Whether it is 0.
    #[must_use]
    pub fn is_zero(&self) -> bool {
        self.magnitude == [0; 12]
    }

    /// The digits of the magnitude, without those that are 0 in front; 0 of 0.
    #[must_use]
    pub fn bit_length(&self) -> u32 {
        bit_length(&self.magnitude)
    }

    /// The number, where it has at most 127 digits.
    ///
    /// ```
    /// use fermuzhai::{Format, Kind, Totals};
    ///
    /// // 2^4000, −3 × 2^2597 and 2^−4000, in five digits: beside 2^4000 the second pass has three
    /// // units
    /// let wide = Totals::of(Format::new(Kind::Ieee, 13, 18));
    /// let list = [0x1f9f << 4, 1 << 17 | 0x1a25 << 4 | 8, 0x5f << 4];
    /// let sum = |allowance| Some(wide.sum_within(&list, allowance).ok()?.unfinished()?.sum);
    /// assert_eq!(sum(1).unwrap().to_i128(), None);
    /// assert_eq!(sum(2).unwrap().to_i128(), Some(-3));
    /// # Ok::<(), fermuzhai::Refusal>(())
    /// ```
    #[must_use]
    pub fn to_i128(&self) -> Option<i128> {
        if self.bit_length() > 127 {
            return None;
        }
        let magnitude = i128::from(self.magnitude[0]) | i128::from(self.magnitude[1]) << 64;
        Some(if self.is_negative {
            -magnitude
        } else {
            magnitude
        })
    }
}

/// A whole number of units of 2^`unit`, with a sign: what a sum is compared against that lies too
/// near to it for a rounding.
///
/// ```
/// use fermuzhai::{Format, Kind, Totals};
///
/// // 2^4000 and 2^−4000, in five digits
/// let wide = Totals::of(Format::new(Kind::Ieee, 13, 18));
/// let seen = wide.sum_within(&[0x1f9f << 4, 0x5f << 4], 2)?.unfinished().unwrap();
/// let boundary = seen.boundary.unwrap();
/// assert_eq!((boundary.is_negative, boundary.whole, boundary.unit), (false, 0x20, 3995));
/// assert_eq!((seen.sum.to_i128(), seen.last_edge), (Some(0), 2597));
/// # Ok::<(), fermuzhai::Refusal>(())
/// ```
#[derive(Clone, Copy, Debug, PartialEq, Eq, Hash)]
#[non_exhaustive]
pub struct Boundary {
    /// Whether it is below zero.
    pub is_negative: bool,
    /// The whole number, never 0.
    pub whole: u64,
    /// The position of its unit, above the last edge: that of the bit worth 1 is 0.
    pub unit: i64,
}

impl Unfinished {
    /// The words of an answer behind result, marks and passes; S in two's complement.
    fn from_words(
        passes: u64,
        is_minus: bool,
        [last_edge, whole, unit, sum @ ..]: [u64; 15],
        elements: usize,
    ) -> Self {
        Self {
            passes,
            last_edge: last_edge as i64,
            sum: Units::from_words(sum),
            boundary: (whole != 0).then_some(Boundary {
                is_negative: is_minus,
                whole,
                unit: unit as i64,
            }),
            elements,
        }
    }

    /// Two doubles, or infinities, that have the exact sum between them, or are it: S and the
    /// boundary less and plus a unit for each element, rounded down and up.
    ///
    /// They are of any format's sum as a number, before it is rounded to the format. One of zero is
    /// +0.
    ///
    /// ```
    /// use fermuzhai::{sum_within, Totals};
    ///
    /// // what is left when 2^1000 has gone is not seen by the first pass; three units of 2^298 are
    /// // the bound
    /// let list = [2f64.powi(1000), 1.0, -2f64.powi(1000)];
    /// let seen = sum_within(&list, 1)?.unfinished().unwrap();
    /// assert_eq!(seen.bounds(), (-3.0 * 2f64.powi(298), 3.0 * 2f64.powi(298)));
    /// assert_eq!(seen.figure(), 0.0);
    ///
    /// // beyond the doubles there are infinities
    /// let seen = sum_within(&[f64::MAX, f64::MAX, 1e-300], 1)?.unfinished().unwrap();
    /// assert_eq!(seen.bounds(), (f64::MAX, f64::INFINITY));
    /// # Ok::<(), fermuzhai::Refusal>(())
    /// ```
    #[must_use]
    pub fn bounds(&self) -> (f64, f64) {
        let most = self.elements as i128;
        (
            self.shown(-most).rounded(Toward::Negative),
            self.shown(most).rounded(Toward::Positive),
        )
    }

    /// S and the boundary as the nearest double, ties to even; an infinity where that is too large.
    /// It lies between [`Unfinished::bounds`], and is a figure to show, not a result: nothing is
    /// promised of its last digits.
    #[must_use]
    pub fn figure(&self) -> f64 {
        self.shown(0).rounded(Toward::Nearest)
    }

    /// S, so many units more, and the boundary.
    fn shown(&self, more: i128) -> Wide {
        let mut words = [0; WORDS];
        words[..12].copy_from_slice(&self.sum.magnitude);
        if self.sum.is_negative {
            negate(&mut words);
        }
        let sign = if more < 0 { u64::MAX } else { 0 };
        let mut spread = [sign; WORDS];
        spread[0] = more as u64;
        spread[1] = (more >> 64) as u64;
        add(&mut words, &spread);
        let Some(boundary) = self.boundary else {
            return Wide {
                words,
                place: self.last_edge,
            };
        };

        let mut apart = boundary.unit.saturating_sub(self.last_edge).max(0);
        let mut place = self.last_edge;
        if apart > FARTHEST {
            // S lies so far below the boundary's unit that its sign alone can part two doubles
            let is_negative = is_below_zero(&words);
            let is_zero = words == [0; WORDS];
            words = [if is_negative { u64::MAX } else { 0 }; WORDS];
            words[0] |= u64::from(!is_zero);
            apart = FARTHEST;
            place = boundary.unit.saturating_sub(FARTHEST);
        }
        let (word, bit) = ((apart / 64) as usize, apart % 64);
        let whole = u128::from(boundary.whole) << bit;
        let mut raised = [0; WORDS];
        raised[word] = whole as u64;
        raised[word + 1] = (whole >> 64) as u64;
        if boundary.is_negative {
            negate(&mut raised);
        }
        add(&mut words, &raised);
        Wide { words, place }
    }
}

/// `between LOWER and UPPER, passes N`.
impl Display for Unfinished {
    fn fmt(&self, out: &mut Formatter<'_>) -> fmt::Result {
        let (lower, upper) = self.bounds();
        out.write_str("between ")?;
        Display::fmt(&lower, out)?;
        out.write_str(" and ")?;
        Display::fmt(&upper, out)?;
        write!(out, ", passes {}", self.passes)
    }
}

/// Sixteen words hold S, which takes twelve, and a boundary of one word raised by up to
/// [`FARTHEST`].
const WORDS: usize = 16;

/// A unit of the boundary this far above the last edge is 2^64 times what S and the elements can
/// be.
const FARTHEST: i64 = 832;

/// Where a number that is no double goes.
#[derive(Clone, Copy, PartialEq)]
enum Toward {
    Negative,
    Positive,
    Nearest,
}

/// A number in two's complement, in units of 2^place.
struct Wide {
    words: [u64; WORDS],
    place: i64,
}

impl Wide {
    fn rounded(mut self, toward: Toward) -> f64 {
        let is_negative = is_below_zero(&self.words);
        if is_negative {
            negate(&mut self.words);
        }
        let length = i64::from(bit_length(&self.words));
        if length == 0 {
            return 0.0;
        }
        // the double's lowest digit: the highest one of the number is the first of 53, or it is
        // subnormal
        let unit = self.place.saturating_add(length - 53).max(-1074);
        let cut = unit.saturating_sub(self.place);
        let (whole, is_exact) = if cut <= 0 {
            (self.words[0] << -cut, true)
        } else {
            (self.from(cut), !self.is_set_below(cut))
        };
        let is_away = match toward {
            Toward::Negative => is_negative && !is_exact,
            Toward::Positive => !is_negative && !is_exact,
            Toward::Nearest => {
                let is_half = cut > 0 && self.digit(cut - 1);
                is_half && (whole % 2 == 1 || self.is_set_below(cut - 1))
            }
        };
        let magnitude = if unit > 971 {
            // 2^1024 or more
            let is_infinite = match toward {
                Toward::Negative => is_negative,
                Toward::Positive => !is_negative,
                Toward::Nearest => true,
            };
            if is_infinite {
                f64::INFINITY
            } else {
                f64::MAX
            }
        } else {
            // a digit in front of 53 goes into the exponent, and from the greatest double to
            // infinity
            let field = (unit + 1074) as u64;
            f64::from_bits((field << 52) + whole + u64::from(is_away))
        };
        if is_negative && magnitude != 0.0 {
            -magnitude
        } else {
            magnitude
        }
    }

    fn digit(&self, at: i64) -> bool {
        let word = usize::try_from(at / 64).ok();
        word.and_then(|word| self.words.get(word))
            .is_some_and(|word| word >> (at % 64) & 1 == 1)
    }

    /// The number without the digits below one, as far as it fits a word.
    fn from(&self, at: i64) -> u64 {
        (at..at.saturating_add(64))
            .rev()
            .fold(0, |n, at| n << 1 | u64::from(self.digit(at)))
    }

    fn is_set_below(&self, at: i64) -> bool {
        (0..at.min(64 * WORDS as i64)).any(|at| self.digit(at))
    }
}

fn is_below_zero(words: &[u64]) -> bool {
    words.last().is_some_and(|word| word >> 63 == 1)
}

fn negate(words: &mut [u64]) {
    let mut carry = true;
    for word in words {
        (*word, carry) = (!*word).overflowing_add(carry.into());
    }
}

fn add(words: &mut [u64; WORDS], more: &[u64; WORDS]) {
    let mut carry = false;
    for (word, more) in words.iter_mut().zip(more) {
        let (sum, first) = word.overflowing_add(*more);
        let (sum, second) = sum.overflowing_add(carry.into());
        (*word, carry) = (sum, first || second);
    }
}

fn bit_length(words: &[u64]) -> u32 {
    let highest = words.iter().rposition(|&word| word != 0);
    highest.map_or(0, |i| 64 * (i as u32 + 1) - words[i].leading_zeros())
}

/// A first figure within an allowance of passes.
impl<T: Word> Totals<T> {
    /// The sum of the values, if its chain of passes ends within the allowance; else what the last
    /// pass allowed has seen.
    ///
    /// A list of zeros, an empty one and one with a NaN or an infinity take no pass.
    /// `docs/PROMISES.md` of the repository says which allowance is enough for any list. A call
    /// walks over the list at most once for each pass allowed, beside the first look that every
    /// total takes; passes that see nothing are counted, not walked.
    ///
    /// # Errors
    ///
    /// [`Refusal::NoPassAllowed`] where the allowance is 0, else those of [`Totals::sum`].
    ///
    /// Proved: the contract of `totals_sum_within` in `crates/targets/src/entry_within.rt`;
    /// `within-in-time`, `within-limit`, `within-same`, `within-unfinished`, `within-near`,
    /// `within-narrower`, `within-refusal`, `within-order` in
    /// `crates/targets_spec/proofs`.
    ///
    /// ```
    /// use fermuzhai::{Format, Kind, Refusal, Totals};
    ///
    /// // 2^4000, −2^4000 and 2^−4000, in five digits: ten passes find nothing
    /// let wide = Totals::of(Format::new(Kind::Ieee, 13, 18));
    /// let list = [0x1f9f << 4, 0x1f9f << 4 | 1 << 17, 0x5f << 4];
    /// let within = |allowance| wide.sum_within(&list, allowance).ok()?.unfinished();
    /// let edges = [1, 2, 9, 10, 11].map(|allowance| Some(within(allowance)?.last_edge));
    /// assert_eq!(edges, [Some(3298), Some(2532), Some(-2830), Some(-3596), None]);
    /// assert_eq!(wide.sum_within(&list, 11)?.full(), Some(wide.sum(&list)?));
    /// assert_eq!(wide.sum_within(&list, 0), Err(Refusal::NoPassAllowed));
    /// # Ok::<(), Refusal>(())
    /// ```
    pub fn sum_within(&self, values: &[T], allowance: u64) -> Result<Estimate<T>, Refusal> {
        self.sum_of_within(Summand::Value, values, allowance)
    }

    /// One of the three sums within an allowance, chosen by its summand.
    ///
    /// # Errors
    ///
    /// Those of [`Totals::sum_within`].
    ///
    /// Proved: as of [`Totals::sum_within`].
    ///
    /// ```
    /// use fermuzhai::{Summand, Totals};
    ///
    /// // 2^1000 and 2^−1000
    /// let list = [2f64.powi(500), 2f64.powi(-500)];
    /// let totals = Totals::<f64>::new();
    /// let seen = totals.sum_of_within(Summand::Square, &list, 1)?.unfinished().unwrap();
    /// assert_eq!(seen.figure(), 2f64.powi(1000));
    /// assert_eq!(totals.sum_of_within(Summand::Square, &list, 2)?.passes(), 2);
    /// # Ok::<(), fermuzhai::Refusal>(())
    /// ```
    pub fn sum_of_within(
        &self,
        summand: Summand,
        values: &[T],
        allowance: u64,
    ) -> Result<Estimate<T>, Refusal> {
        self.sum_bytes_within(summand, &self.lent(values), allowance)
    }

    /// The dot product within an allowance.
    ///
    /// # Errors
    ///
    /// [`Refusal::NoPassAllowed`] where the allowance is 0, else those of [`Totals::dot`].
    ///
    /// Proved: the contract of `totals_dot_within` in `crates/targets/src/entry_within.rt`, and the
    /// theorems of [`Totals::sum_within`].
    pub fn dot_within(
        &self,
        left: &[T],
        right: &[T],
        allowance: u64,
    ) -> Result<Estimate<T>, Refusal> {
        self.dot_bytes_within(&self.lent(left), &self.lent(right), allowance)
    }

    /// [`Totals::sum_of_within`] of values in bytes, eight a value, the least byte first.
    ///
    /// # Errors
    ///
    /// [`Refusal::UnevenLength`], of a length that is not a multiple of 8, or of 10 in
    /// [`Format::EXTENDED`](crate::Format::EXTENDED); else those of [`Totals::sum_within`].
    ///
    /// Proved: as of [`Totals::sum_within`].
    pub fn sum_bytes_within(
        &self,
        summand: Summand,
        values: &[u8],
        allowance: u64,
    ) -> Result<Estimate<T>, Refusal> {
        let bias = self.format().named_bias;
        let summand = summand as u64;
        self.estimate(values.len() / 8, |f, c, answer| {
            raw::sum_within(f, bias, c, summand, allowance, values, answer)
        })
    }

    /// [`Totals::dot_within`] of values in bytes, eight a value, the least byte first.
    ///
    /// # Errors
    ///
    /// [`Refusal::UnevenLength`], of a length that is not a multiple of 8, or of 10 in
    /// [`Format::EXTENDED`](crate::Format::EXTENDED); else those of [`Totals::dot_within`].
    ///
    /// Proved: as of [`Totals::dot_within`].
    pub fn dot_bytes_within(
        &self,
        left: &[u8],
        right: &[u8],
        allowance: u64,
    ) -> Result<Estimate<T>, Refusal> {
        let bias = self.format().named_bias;
        self.estimate(left.len() / 8, |f, c, answer| {
            raw::dot_within(f, bias, c, allowance, left, right, answer)
        })
        .map_err(|refusal| self.with_list(refusal, left))
    }

    /// Lends an entry the 144 bytes of an answer and reads what it leaves there.
    fn estimate(
        &self,
        elements: usize,
        entry: impl FnOnce(raw::Format, raw::Settings, &mut [u8]) -> u64,
    ) -> Result<Estimate<T>, Refusal> {
        let mut answer = [[0; 8]; 18];
        let code = entry(
            self.format().into(),
            self.settings().into(),
            answer.as_flattened_mut(),
        );
        if let Some(refusal) = Refusal::from_code(code) {
            return Err(self.with_setting(refusal));
        }
        let [result, marks, passes, rest @ ..] = answer;
        let [_, mark, _, minus, ..] = marks;
        Ok(if mark == 0 {
            Estimate::Full(T::record(&[result, marks, passes, [0; 8]]))
        } else {
            let words = rest.map(u64::from_le_bytes);
            let passes = u64::from_le_bytes(passes);
            Estimate::Unfinished(Unfinished::from_words(passes, minus == 1, words, elements))
        })
    }
}
