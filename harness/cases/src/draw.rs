//! Settings and single values, drawn where trouble is likely: near each other and near the ends of the format.

use crate::case::{Case, Format, Operation};
use crate::rng::Rng;
use crate::shape::{Encodings, Shape};

/// Formats with more exponent bits than 15 have numbers so far apart that the original walks thousands of passes between them.
pub fn is_wide(format: Format) -> bool {
    format.exponent_bits() > 15
}

/// How far apart, in positions, the values of one list of a wide format lie.
const SPREAD: i64 = 3000;

/// Every setting in its range; most precisions are 0, the ends of the range come often.
pub fn settings(rng: &mut Rng, digits: u32) -> [u64; 8] {
    let precision = match rng.below(8) {
        0..=3 => 0,
        4 => u64::from(digits),
        5 => 1 + rng.below(u64::from(digits).min(3)),
        _ => 1 + rng.below(u64::from(digits)),
    };
    // the last four change much of an answer: off more often than on
    let mut seldom = || u64::from(rng.once_in(4));
    let (flush, daz, saturate) = (seldom(), seldom(), seldom());
    [rng.below(8), rng.below(2), rng.below(4), rng.below(2), flush, daz, saturate, precision]
}

pub fn operation(rng: &mut Rng) -> Operation {
    match rng.below(8) {
        0..=2 => Operation::Sum(0),
        3 => Operation::Sum(1),
        4 => Operation::Sum(2),
        _ => Operation::Dot,
    }
}

/// A case of this format and operation, still without values.
pub fn empty_case(rng: &mut Rng, format: Format, operation: Operation) -> Case {
    let mut case = Case::new(format, settings(rng, Shape::of(format).digits), operation);
    case.room = 24 + rng.below(24) as usize;
    case.fill = rng.next() as u8;
    case.order = rng.next();
    case
}

/// Mostly short, up to 40.
pub fn length(rng: &mut Rng) -> usize {
    let longest = rng.pick(&[2, 3, 4, 6, 10, 40]);
    rng.below(longest + 1) as usize
}

/// Values of one list, near one exponent field.
pub struct Near {
    pub shape: Shape,
    centre: i64,
    spread: i64,
}

impl Near {
    pub fn new(rng: &mut Rng, shape: Shape) -> Self {
        let highest = shape.highest_field();
        let one = shape.position_of_one() - i64::from(shape.fraction) + 1;
        let centre = match rng.below(6) {
            0 => rng.between(0, highest.min(3)),
            1 => highest - rng.between(0, highest.min(3)),
            2 => (one + rng.between(-70, 70)).clamp(0, highest),
            // half way to the least and to the largest: squares and products come near both ends
            3 => (one / 2 + rng.between(-40, 40)).clamp(0, highest),
            4 => ((one + highest) / 2 + rng.between(-3, 3)).clamp(0, highest),
            _ => rng.between(0, highest),
        };
        Self::around(rng, shape, centre)
    }

    /// Values near the least ones.
    pub fn low(rng: &mut Rng, shape: Shape) -> Self {
        let centre = rng.between(0, shape.highest_field().min(3));
        Self::around(rng, shape, centre)
    }

    fn around(rng: &mut Rng, shape: Shape, centre: i64) -> Self {
        let digits = i64::from(shape.digits);
        let spread = rng.pick(&[0, 1, 3, digits, 2 * digits, 70, 640, 705, 770, 1500, SPREAD, i64::MAX]);
        let most = if is_wide(shape.format) { SPREAD } else { shape.highest_field() };
        Self { shape, centre, spread: spread.min(most) }
    }

    fn any_field(&self, rng: &mut Rng) -> i64 {
        let highest = self.shape.highest_field();
        rng.between((self.centre - self.spread).max(0), (self.centre + self.spread).min(highest))
    }

    /// A magnitude with a field near the centre, and a fraction that is often all zeros, all ones or a single bit.
    fn near_centre(&self, rng: &mut Rng) -> u64 {
        let ones = self.shape.least_normal() - 1;
        let fraction = match rng.below(8) {
            0 => 0,
            1 => ones,
            2 => 1,
            3 => 1 << rng.below(u64::from(self.shape.fraction)),
            4 => ones << rng.below(u64::from(self.shape.fraction)),
            _ => rng.next(),
        };
        ((self.any_field(rng) as u64) << self.shape.fraction | fraction & ones).min(self.shape.largest)
    }

    /// A magnitude at an end of the format, where that is near enough.
    fn at_an_end(&self, rng: &mut Rng) -> u64 {
        let shape = &self.shape;
        let ends = [0, 1, 2, shape.least_normal() - 1, shape.least_normal(), shape.least_normal() + 1, shape.largest, shape.largest - 1];
        let end = rng.pick(&ends);
        if (shape.field(end) - self.centre).abs() <= SPREAD { end } else { self.near_centre(rng) }
    }

    /// One more or one less than a magnitude, still finite.
    fn neighbour(&self, rng: &mut Rng, magnitude: u64) -> u64 {
        if rng.bit() { (magnitude + 1).min(self.shape.largest) } else { magnitude.saturating_sub(1) }
    }

    /// A finite value with either sign, or one made from an earlier value: the same, its negative, a neighbour, twice or half of it.
    pub fn value(&self, rng: &mut Rng, earlier: &[u64]) -> u64 {
        let sign = self.shape.sign;
        let former = if earlier.is_empty() { None } else { Some(rng.pick(earlier) & (sign - 1)) };
        let former = former.filter(|&magnitude| magnitude <= self.shape.largest);
        let magnitude = match (rng.below(12), former) {
            (0 | 1, Some(x)) => x,
            (2, Some(x)) => self.neighbour(rng, x),
            (3, Some(x)) => (x + self.shape.least_normal()).min(self.shape.largest),
            (4, Some(x)) => x.saturating_sub(self.shape.least_normal()),
            (5, _) => self.at_an_end(rng),
            (6, _) => {
                let power = self.any_field(rng) as u64;
                self.neighbour(rng, power << self.shape.fraction).min(self.shape.largest)
            }
            _ => self.near_centre(rng),
        };
        let value = if rng.bit() { magnitude | sign } else { magnitude };
        // Fnuz has no negative zero: its encoding is the NaN, which other draws bring in
        if self.shape.is_nan(value) { magnitude } else { value }
    }
}
