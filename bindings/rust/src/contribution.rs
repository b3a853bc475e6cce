use crate::{raw, Refusal, Totals, Word};

/// The contribution that reaches a target is asked for in words.
impl<T: Word> Totals<T> {
    /// What must be added to reach a total: the least finite number of the format with which,
    /// behind the values, [`Totals::sum`] has the wanted total for its result.
    ///
    /// The least is the most negative one: with a wanted total below what the list comes to, that
    /// is an amount that goes back. Zeros of either sign are equal, as results and as the wanted
    /// total, and where zero is the answer it is +0. With
    /// [`Settings::saturate`](crate::Settings::saturate) every number that leads too far reaches
    /// the largest one. A precision is one of the sum; the number found may have all digits of the
    /// format.
    ///
    /// # Errors
    ///
    /// The first of these that holds:
    ///
    /// - [`Refusal::NoSuchFormat`], of a format that the library does not have, that names a bias
    ///   out of its range, or that is not of [`Kind::Ieee`](crate::Kind::Ieee)
    /// - [`Refusal::PrecisionOutOfRange`]; and [`Refusal::SettingOutOfRange`] of flush to zero or
    ///   denormals-are-zero, of which neither may be on
    /// - [`Refusal::TooManyElements`], of 268,435,456 values or more: the number found is one
    ///   element of the longer list
    /// - [`Refusal::StrayBit`], of an encoding that is wider than the format; its place is the
    ///   length of the list where the wanted total is the only one
    /// - [`Refusal::NotFinite`], of a NaN or an infinity among the values or for the wanted total
    /// - [`Refusal::NoContribution`], where no finite number does it
    ///
    /// Proved: the contract of `totals_contribution` in `crates/targets/src/entry_contribution.rt`;
    /// `contribution-least` (it reaches the total, and no smaller number does),
    /// `contribution-none`, `contribution-rises`, `contribution-refusal`, `contribution-place`,
    /// `contribution-order` (every order of a list without a stray bit has one answer) in
    /// `crates/targets_spec/proofs`.
    ///
    /// ```
    /// use fermuzhai::{Format, Refusal, Rounding, Settings, Totals};
    ///
    /// // 1 in half precision, to reach 1: less 2^−12 is a tie, and goes to 1
    /// let halves = Totals::of(Format::BINARY16);
    /// assert_eq!(halves.contribution(&[0x3c00], 0x3c00)?, 0x8c00);
    /// // toward negative anything less misses it, and +0 is the least
    /// let down = Settings::new().with_rounding(Rounding::TowardNegative);
    /// assert_eq!(halves.with_settings(down).contribution(&[0x3c00], 0x3c00)?, 0);
    ///
    /// // to three digits no sum is the next number
    /// let three = halves.with_settings(Settings::new().with_precision(3));
    /// assert_eq!(three.contribution(&[0x3c00], 0x3c01), Err(Refusal::NoContribution));
    ///
    /// // a stray bit comes before a NaN; that of the wanted total has the list's length for place
    /// assert_eq!(halves.contribution(&[0x7e00], 0), Err(Refusal::NotFinite));
    /// let stray = Refusal::StrayBit { place: 1, list: None };
    /// assert_eq!(halves.contribution(&[0x7e00], 0x1_0000), Err(stray));
    /// # Ok::<(), Refusal>(())
    /// ```
    pub fn contribution(&self, values: &[T], wanted: T) -> Result<T, Refusal> {
        let mut number = [0; 8];
        let code = raw::contribution(
            self.format().into(),
            self.format().named_bias,
            self.settings().into(),
            wanted.encoding(),
            &T::encodings(values),
            &mut number,
        );
        match Refusal::from_code(code) {
            Some(refusal) => Err(self.with_setting(refusal)),
            None => Ok(T::from_encoding(u64::from_le_bytes(number))),
        }
    }
}
