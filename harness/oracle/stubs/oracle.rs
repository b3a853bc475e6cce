//! The calls into the copied source, one for each format, and the table of them.

use core::cell::Cell;
use core::marker::PhantomData;
use core::num::NonZeroU32;
use std::collections::BTreeMap;

use crate::binary::{Layout, Summand};
use crate::env::{Env, Flags, NanPropagation, NanRule, Rounding, Tininess};
use crate::format::{Encoding, EncodingKind, Ieee, Storage, Width, X87};
use crate::limbs::Widen;
use crate::sealed::Sealed;

const ROUNDINGS: [Rounding; 8] = [
    Rounding::TiesToEven,
    Rounding::TiesToAway,
    Rounding::TiesTowardZero,
    Rounding::TowardPositive,
    Rounding::TowardNegative,
    Rounding::TowardZero,
    Rounding::AwayFromZero,
    Rounding::ToOdd,
];

const TININESSES: [Tininess; 2] = [Tininess::BeforeRounding, Tininess::AfterRounding];

const PROPAGATIONS: [NanPropagation; 4] =
    [NanPropagation::SignalingFirst, NanPropagation::FirstOperand, NanPropagation::LargerSignificand, NanPropagation::DefaultNan];

const SUMMANDS: [Summand; 3] = [Summand::Value, Summand::Magnitude, Summand::Square];

/// The environment of the specification's eight settings, which are all in their ranges.
fn env(settings: &[u64; 8]) -> Env {
    let [rounding, tininess, propagation, negative, flush, denormals, saturate, precision] = *settings;
    let nan = NanRule::new(PROPAGATIONS[propagation as usize]).with_default_negative(negative == 1);
    Env::IEEE
        .with_rounding(ROUNDINGS[rounding as usize])
        .with_tininess(TININESSES[tininess as usize])
        .with_nan(nan)
        .with_flush_to_zero(flush == 1)
        .with_denormals_are_zero(denormals == 1)
        .with_saturate(saturate == 1)
        .with_precision(NonZeroU32::new(precision as u32))
}

/// What is asked for: a sum with the number of its summand, or a dot product.
#[derive(Clone, Copy)]
pub enum Operation {
    Sum(u64),
    Dot,
}

/// The source's answer, and the number of times that it walked the list after its first reading.
#[derive(Clone, Copy)]
pub struct Answer {
    pub result: u64,
    pub flags: u8,
    pub passes: u64,
}

/// An iterator that counts its clones. The source clones the list once to read it, and once for each pass.
struct Counted<'a, I> {
    inner: I,
    clones: &'a Cell<u64>,
}

impl<I: Clone> Clone for Counted<'_, I> {
    fn clone(&self) -> Self {
        self.clones.set(self.clones.get() + 1);
        Self { inner: self.inner.clone(), clones: self.clones }
    }
}

impl<I: Iterator> Iterator for Counted<'_, I> {
    type Item = I::Item;

    #[inline]
    fn next(&mut self) -> Option<I::Item> {
        self.inner.next()
    }
}

/// The flags as the specification's numbers, one bit for each.
fn flag_byte(flags: Flags) -> u8 {
    let in_order = [
        Flags::INVALID,
        Flags::DIVIDE_BY_ZERO,
        Flags::OVERFLOW,
        Flags::UNDERFLOW,
        Flags::INEXACT,
        Flags::TINY,
        Flags::ROUNDED_UP,
        Flags::DENORMAL_INPUT,
    ];
    in_order.iter().enumerate().map(|(place, &flag)| u8::from(flags.contains(flag)) << place).sum()
}

/// The result, the flags and the passes of one format, over two lists in its words. The right one is not read in a sum.
fn counted<const E: u32, Enc: Encoding, const W: usize, L: Widen>(
    operation: Operation,
    left: impl Iterator<Item = L> + Clone,
    right: impl Iterator<Item = L> + Clone,
    settings: &[u64; 8],
) -> (L, u8, u64)
where
    Width<W>: Storage,
{
    let clones = Cell::new(0);
    let env = env(settings);
    let (result, flags) = match operation {
        Operation::Sum(summand) => {
            let values = Counted { inner: left, clones: &clones };
            Layout::<E, Enc, W>::reduce(values, SUMMANDS[summand as usize], &env)
        }
        Operation::Dot => {
            let pairs = Counted { inner: left.zip(right), clones: &clones };
            Layout::<E, Enc, W>::dot(pairs, &env)
        }
    };
    (result, flag_byte(flags), clones.get() - 1)
}

/// The total of one format. `right` has the length of `left` in a dot, and is not read in a sum.
fn total<const E: u32, Enc: Encoding, const W: usize>(operation: Operation, left: &[u64], right: &[u64], settings: &[u64; 8]) -> Answer
where
    Width<W>: Storage,
{
    let words = |&word: &u64| [word];
    let ([result], flags, passes) = counted::<E, Enc, W, _>(operation, left.iter().map(words), right.iter().map(words), settings);
    Answer { result, flags, passes }
}

/// The answer in X87, of which an encoding has two words.
#[derive(Clone, Copy)]
pub struct WideAnswer {
    pub result: u128,
    pub flags: u8,
    pub passes: u64,
}

/// The total of X87.
#[must_use]
pub fn extended(operation: Operation, left: &[u128], right: &[u128], settings: &[u64; 8]) -> WideAnswer {
    let words = |&value: &u128| [value as u64, (value >> 64) as u64];
    let ([low, high], flags, passes) = counted::<15, X87, 80, _>(operation, left.iter().map(words), right.iter().map(words), settings);
    WideAnswer { result: u128::from(high) << 64 | u128::from(low), flags, passes }
}

/// The result of one format, its walks not counted, for the timings.
#[inline(never)]
pub fn plain<const E: u32, Enc: Encoding, const W: usize>(operation: Operation, left: &[[u64; 1]], right: &[[u64; 1]], settings: &[u64; 8]) -> u64
where
    Width<W>: Storage,
{
    let env = env(settings);
    let words = left.iter().copied();
    let ([result], _) = match operation {
        Operation::Sum(summand) => Layout::<E, Enc, W>::reduce(words, SUMMANDS[summand as usize], &env),
        Operation::Dot => Layout::<E, Enc, W>::dot(words.zip(right.iter().copied()), &env),
    };
    result
}

/// An encoding with a bias of its own.
pub struct Named<Enc, const B: i32>(PhantomData<Enc>);

impl<Enc: Encoding, const B: i32> Sealed for Named<Enc, B> {}

impl<Enc: Encoding, const B: i32> Encoding for Named<Enc, B> {
    const KIND: EncodingKind = Enc::KIND;
    const BIAS: Option<i32> = Some(B);
}

/// A format's total, as a plain function.
pub type Total = fn(Operation, &[u64], &[u64], &[u64; 8]) -> Answer;

const KINDS: usize = 4;
const EXPONENTS: usize = 29;
const WIDTHS: usize = 65;

/// The totals of the formats that were compiled.
pub struct Table {
    totals: Vec<Option<Total>>,
    /// Those of formats with a bias of their own, by it.
    biased: BTreeMap<(i64, [u64; 3]), Total>,
}

impl Table {
    #[must_use]
    pub fn new() -> Self {
        Self { totals: vec![None; KINDS * EXPONENTS * WIDTHS], biased: BTreeMap::new() }
    }

    fn place([kind, exponent_bits, width]: [u64; 3]) -> usize {
        (kind as usize * EXPONENTS + exponent_bits as usize) * WIDTHS + width as usize
    }

    /// Adds a format.
    pub fn put<const E: u32, Enc: Encoding, const W: usize>(&mut self)
    where
        Width<W>: Storage,
    {
        let kind = match Enc::KIND {
            EncodingKind::Ieee => 0,
            EncodingKind::NoInf => 1,
            EncodingKind::Fnuz => 2,
            EncodingKind::Finite => 3,
            EncodingKind::X87 => unreachable!("X87 has two words, and is no format of the table"),
        };
        let format = [kind, u64::from(E), W as u64];
        match Enc::BIAS {
            None => self.totals[Self::place(format)] = Some(total::<E, Enc, W>),
            Some(bias) => drop(self.biased.insert((bias.into(), format), total::<E, Enc, W>)),
        }
    }

    /// Adds binary64 here, so that what does not depend on the format is compiled in this crate, with optimizations, and shared by the formats' crates.
    pub fn put_binary64(&mut self) {
        self.put::<11, Ieee, 64>();
    }

    /// The total of a format with kind, exponent bits and width in the specification's ranges, if it was compiled. Where a bias is named it is that of an
    /// encoding with this bias, or of the plain one that has it.
    #[must_use]
    pub fn get(&self, format: [u64; 3], bias: Option<i64>) -> Option<Total> {
        let plain = self.totals[Self::place(format)];
        let Some(bias) = bias else { return plain };
        let own = (1 << (format[1] - 1)) - i64::from(format[0] != 2);
        self.biased.get(&(bias, format)).copied().or(plain.filter(|_| bias == own))
    }

    /// Every format that was compiled, with its bias where it has one of its own.
    #[must_use]
    pub fn formats(&self) -> Vec<([u64; 3], Option<i64>)> {
        let all = (0..KINDS as u64).flat_map(|kind| (0..EXPONENTS as u64).flat_map(move |e| (0..WIDTHS as u64).map(move |w| [kind, e, w])));
        let plain = all.filter(|&format| self.totals[Self::place(format)].is_some()).map(|format| (format, None));
        plain.chain(self.biased.keys().map(|&(bias, format)| (format, Some(bias)))).collect()
    }
}
