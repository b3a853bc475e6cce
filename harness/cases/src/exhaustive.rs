//! Every list of a few values of a tiny format, with every setting or with those that such lists can feel.

use crate::case::{Case, Format, Operation};
use crate::rng::Rng;

/// A set of cases, one for each number below `size`.
pub struct Space {
    pub name: &'static str,
    exponent_bits: u64,
    width: u64,
    /// The number of values, or pairs.
    lengths: std::ops::RangeInclusive<u32>,
    dot: bool,
    /// Which settings take each value of their range; the others are drawn.
    every: [bool; 8],
}

const ALL: [bool; 8] = [true; 8];
/// All but the NaN rule and the default NaN's sign.
const NUMERIC: [bool; 8] = [true, true, false, false, true, true, true, true];
const ROUNDING: [bool; 8] = [true, false, false, false, false, false, false, false];

pub const SPACES: [Space; 7] = [
    Space { name: "sums of up to 2, E 2 W 4, every setting", exponent_bits: 2, width: 4, lengths: 0..=2, dot: false, every: ALL },
    Space { name: "dots of up to 1, E 2 W 4, every setting", exponent_bits: 2, width: 4, lengths: 0..=1, dot: true, every: ALL },
    Space { name: "sums of 3, E 2 W 4, numeric settings", exponent_bits: 2, width: 4, lengths: 3..=3, dot: false, every: NUMERIC },
    Space { name: "dots of 2, E 2 W 4, every rounding", exponent_bits: 2, width: 4, lengths: 2..=2, dot: true, every: ROUNDING },
    Space { name: "sums of 2, E 3 W 6, numeric settings", exponent_bits: 3, width: 6, lengths: 2..=2, dot: false, every: NUMERIC },
    Space { name: "dots of 1, E 3 W 6, numeric settings", exponent_bits: 3, width: 6, lengths: 1..=1, dot: true, every: NUMERIC },
    Space { name: "sums of 1, E 4 W 8, numeric settings", exponent_bits: 4, width: 8, lengths: 1..=1, dot: false, every: NUMERIC },
];

/// Takes the lowest digit of a number in mixed radix.
fn digit(rest: &mut u64, radix: u64) -> u64 {
    let low = *rest % radix;
    *rest /= radix;
    low
}

impl Space {
    fn radices(&self) -> [u64; 8] {
        [8, 2, 4, 2, 2, 2, 2, self.width - self.exponent_bits + 1]
    }

    /// The bits of all values of a list of this length.
    fn bits(&self, length: u32) -> u32 {
        self.width as u32 * length * if self.dot { 2 } else { 1 }
    }

    fn lists(&self) -> u64 {
        self.lengths.clone().map(|length| 1 << self.bits(length)).sum()
    }

    pub fn size(&self) -> u64 {
        let settings: u64 = self.radices().iter().zip(self.every).filter(|(_, every)| *every).map(|(radix, _)| radix).product();
        let operations = if self.dot { 1 } else { 3 };
        4 * settings * operations * self.lists()
    }

    /// Case number `number`.
    pub fn case(&self, seed: u64, number: u64) -> Case {
        let mut rng = Rng::new(seed, u64::from(self.dot), number);
        let mut rest = number;
        let kind = digit(&mut rest, 4);
        let operation = if self.dot { Operation::Dot } else { Operation::Sum(digit(&mut rest, 3)) };
        let mut settings = [0; 8];
        for (i, radix) in self.radices().into_iter().enumerate() {
            settings[i] = if self.every[i] { digit(&mut rest, radix) } else { rng.below(radix) };
        }
        let mut case = Case::new(Format::plain([kind, self.exponent_bits, self.width]), settings, operation);
        self.put_lists(rest, &mut case);
        case.fill = rng.next() as u8;
        case.room = 24 + rng.below(8) as usize;
        case.order = rng.next();
        case
    }

    /// List number `rest`: the short lists come first.
    fn put_lists(&self, mut rest: u64, case: &mut Case) {
        let mut length = *self.lengths.start();
        while rest >> self.bits(length) != 0 {
            rest -= 1 << self.bits(length);
            length += 1;
        }
        let values = 1 << self.width;
        case.left = (0..length).map(|_| digit(&mut rest, values)).collect();
        if self.dot {
            case.right = (0..length).map(|_| digit(&mut rest, values)).collect();
        }
    }
}

#[cfg(test)]
mod tests {
    use super::SPACES;
    use std::collections::HashSet;

    #[test]
    fn no_case_comes_twice() {
        let space = &SPACES[3];
        let key = |number| {
            let case = space.case(1, number);
            (case.format.numbers[0], case.settings[0], case.left, case.right)
        };
        let seen: HashSet<_> = (0..space.size()).step_by(7).map(key).collect();
        assert_eq!(seen.len() as u64, space.size().div_ceil(7));
        assert_eq!(space.size(), 4 * 8 * 65536);
        assert_eq!(SPACES[0].size(), 4 * 3072 * 3 * 273);
    }
}
