//! The passes of a chain, one after the other, by docs/SPECIFICATION.md: in a window of 768 bits,
//! with terms that may lie anywhere.

use std::cmp::Ordering::{self, Equal, Greater, Less};

use fermuzhai::{Format, Summand};

use crate::numbers::number;

/// A significand times a power of two, not zero.
#[derive(Clone, Copy, Debug)]
pub struct Term {
    pub is_negative: bool,
    pub significand: u128,
    pub exponent: i64,
    /// The position that T is taken of.
    top: i64,
}

impl Term {
    fn highest(&self) -> i64 {
        self.exponent + 127 - i64::from(self.significand.leading_zeros())
    }

    fn lowest(&self) -> i64 {
        self.exponent + i64::from(self.significand.trailing_zeros())
    }
}

/// The elements of a list as terms; `None` where one is a NaN or an infinity. One that counts as
/// zero stays, with a significand of 0.
fn elements(f: Format, denormals_are_zero: bool, values: &[u64]) -> Option<Vec<Term>> {
    let each = values.iter().map(|&value| {
        let n = number(f, value)?;
        let is_zero = n.significand == 0 || (denormals_are_zero && n.is_subnormal);
        let significand = if is_zero { 0 } else { n.significand.into() };
        let mut term = Term {
            is_negative: n.is_negative,
            significand,
            exponent: n.exponent,
            top: 0,
        };
        term.top = term.highest();
        Some(term)
    });
    each.collect()
}

/// A product, whose top counts the two factors' positions plus 1.
fn product(a: &Term, b: &Term) -> Term {
    Term {
        is_negative: a.is_negative != b.is_negative,
        significand: a.significand * b.significand,
        exponent: a.exponent + b.exponent,
        top: a.top + b.top + 1,
    }
}

fn without_zeros(terms: Vec<Term>) -> Vec<Term> {
    let terms = terms.into_iter();
    terms.filter(|term| term.significand != 0).collect()
}

/// The terms of a sum.
pub fn sum_terms(f: Format, is_zero: bool, summand: Summand, list: &[u64]) -> Option<Vec<Term>> {
    let mut terms = elements(f, is_zero, list)?;
    for term in &mut terms {
        *term = match summand {
            Summand::Square => product(term, term),
            Summand::Magnitude => Term {
                is_negative: false,
                ..*term
            },
            _ => *term,
        };
    }
    Some(without_zeros(terms))
}

/// The terms of a dot.
pub fn dot_terms(f: Format, is_zero: bool, left: &[u64], right: &[u64]) -> Option<Vec<Term>> {
    let left = elements(f, is_zero, left)?;
    let right = elements(f, is_zero, right)?;
    let pairs = left.iter().zip(&right);
    Some(without_zeros(pairs.map(|(a, b)| product(a, b)).collect()))
}

/// 768 bits, the least first, in two's complement.
pub type Window = [u32; 24];

fn add(sum: &mut Window, more: &Window) {
    let mut carry = 0;
    for (digit, more) in sum.iter_mut().zip(more) {
        carry += u64::from(*digit) + u64::from(*more);
        *digit = carry as u32;
        carry >>= 32;
    }
}

fn negated(window: &Window) -> Window {
    let mut one = [0; 24];
    one[0] = 1;
    let mut sum = window.map(|digit| !digit);
    add(&mut sum, &one);
    sum
}

/// How many times 2^edge goes into a magnitude, by 2^768.
fn cut(significand: u128, exponent: i64, edge: i64) -> Window {
    let mut window = [0; 24];
    if exponent - edge >= 768 {
        return window;
    }
    for i in 0..128 {
        let at = exponent + i - edge;
        if significand >> i & 1 == 1 && (0..768).contains(&at) {
            window[at as usize / 32] |= 1 << (at % 32);
        }
    }
    window
}

/// What a sum is compared against.
#[derive(Clone, Copy, Debug, PartialEq)]
pub struct Bound {
    pub is_negative: bool,
    pub whole: u128,
    pub unit: i64,
}

/// A pass: where it stands, and what it sees.
#[derive(Clone, Copy, Debug)]
pub struct Pass {
    pub edge: i64,
    pub bound: Option<Bound>,
    pub sum: Window,
    lost: Option<i64>,
}

/// A magnitude and a sign.
pub fn signed(window: &Window) -> (bool, Window) {
    let is_negative = window[23] >> 31 == 1;
    let magnitude = if is_negative {
        negated(window)
    } else {
        *window
    };
    (is_negative, magnitude)
}

fn digit(magnitude: &Window, at: i64) -> bool {
    magnitude[at as usize / 32] >> (at % 32) & 1 == 1
}

impl Pass {
    fn at(terms: &[Term], bound: Option<Bound>, edge: i64) -> Self {
        let mut sum = [0; 24];
        let mut lost = None;
        for term in terms {
            if term.highest() < edge {
                lost = lost.max(Some(term.highest()));
                continue;
            }
            let part = cut(term.significand, term.exponent, edge);
            add(
                &mut sum,
                &if term.is_negative {
                    negated(&part)
                } else {
                    part
                },
            );
            if term.lowest() < edge {
                lost = lost.max(Some(edge - 1));
            }
        }
        if let Some(bound) = bound {
            let part = cut(bound.whole, bound.unit, edge);
            add(
                &mut sum,
                &if bound.is_negative {
                    part
                } else {
                    negated(&part)
                },
            );
        }
        Self {
            edge,
            bound,
            sum,
            lost,
        }
    }

    /// Where the next pass stands; `None` where this is the last.
    fn next(&self, p: i64) -> Option<(Option<Bound>, i64)> {
        let lost = self.lost?;
        let (is_negative, m) = signed(&self.sum);
        let highest = m.iter().rposition(|&digit| digit != 0);
        let n = highest.map_or(0, |i| 32 * (i as i64 + 1) - i64::from(m[i].leading_zeros()));
        let farther = (self.edge + n).max(lost + 65) - 766;
        if self.bound.is_some() {
            return (n < 66).then_some((self.bound, farther));
        }
        if n < p + 70 {
            return Some((None, farther));
        }
        let r = n - p - 1;
        let is_low = (65..r).all(|i| !digit(&m, i));
        let is_high = (65..r).all(|i| digit(&m, i)) && (0..65).any(|i| digit(&m, i));
        let whole = (r..n)
            .rev()
            .fold(0, |w, i| w << 1 | u128::from(digit(&m, i)));
        (is_low || is_high).then_some((
            Some(Bound {
                is_negative,
                whole: whole + u128::from(is_high),
                unit: self.edge + r,
            }),
            self.edge - 701,
        ))
    }
}

/// The passes of terms in p digits, the first at 702 below T.
pub fn passes(terms: &[Term], p: u8) -> impl Iterator<Item = Pass> + '_ {
    let top = terms.iter().map(|term| term.top).max();
    let first = top.map(|top| Pass::at(terms, None, top - 702));
    std::iter::successors(first, move |pass| {
        let (bound, edge) = pass.next(p.into())?;
        Some(Pass::at(terms, bound, edge))
    })
}

/// A magnitude, its least word first, in units of 2^unit, with a sign.
#[derive(Clone, Debug)]
pub struct Part {
    pub is_negative: bool,
    pub words: Vec<u32>,
    pub unit: i64,
}

impl Part {
    pub fn of(is_negative: bool, whole: u128, unit: i64) -> Self {
        let words = (0..4).map(|i| (whole >> (32 * i)) as u32).collect();
        Self {
            is_negative,
            words,
            unit,
        }
    }

    pub fn of_window(window: &Window, unit: i64) -> Self {
        let (is_negative, magnitude) = signed(window);
        Self {
            is_negative,
            words: magnitude.to_vec(),
            unit,
        }
    }

    /// A finite double.
    pub fn of_double(x: f64) -> Self {
        let n = number(Format::BINARY64, x.to_bits()).unwrap();
        Self::of(n.is_negative, n.significand.into(), n.exponent)
    }

    pub fn of_term(term: &Term) -> Self {
        Self::of(term.is_negative, term.significand, term.exponent)
    }

    pub fn negated(&self) -> Self {
        Self {
            is_negative: !self.is_negative,
            ..self.clone()
        }
    }
}

/// How the exact sum of the parts stands beside 0.
pub fn beside_zero(parts: &[Part]) -> Ordering {
    let Some(least) = parts.iter().map(|part| part.unit).min() else {
        return Equal;
    };
    let most = parts
        .iter()
        .map(|part| part.unit + 32 * part.words.len() as i64);
    let mut counts = vec![0i64; ((most.max().unwrap() - least) / 32 + 3) as usize];
    for part in parts {
        let (word, bit) = ((part.unit - least) / 32, (part.unit - least) % 32);
        for (i, digit) in part.words.iter().enumerate() {
            let raised = u64::from(*digit) << bit;
            let sign = if part.is_negative { -1 } else { 1 };
            counts[word as usize + i] += sign * (raised as u32 as i64);
            counts[word as usize + i + 1] += sign * ((raised >> 32) as i64);
        }
    }
    let mut carry = 0;
    let mut is_zero = true;
    for count in counts {
        let total = carry + count;
        is_zero &= total & 0xffff_ffff == 0;
        carry = total >> 32;
    }
    match (carry, is_zero) {
        (0, true) => Equal,
        (0, false) => Greater,
        _ => Less,
    }
}
