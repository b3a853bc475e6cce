//! Two habits of the specification: a call on the negated list, the two directed modes exchanged, has the negated record; a square sum has that of the
//! dot product of the list with itself. Each call is compared with the original, and then with its other.

use std::fmt;

use crate::biases::drawn;
use crate::case::{Case, Format, Operation};
use crate::check::{Bench, Oracle, Seen, has_nan};
use crate::lists::negative;
use crate::refusals::{Expected, expected};
use crate::refused::refused;
use crate::rng::Rng;
use crate::shape::{Decoded, Shape};

/// The case of a sum or a dot, which has a mirror, or of a square sum.
#[derive(Clone, Debug)]
pub struct Habit(pub Case);

const SQUARE: Operation = Operation::Sum(2);

impl Habit {
    /// One of the lists of the other groups: of finite values, of a square sum without a NaN, or a square sum that is refused.
    pub fn draw(rng: &mut Rng, format: Format) -> Self {
        loop {
            let case = if rng.once_in(8) { refused(rng, format) } else { drawn(rng, format) };
            let kept = match (case.operation, expected(&case)) {
                (SQUARE, Expected::Accepted) => !has_nan(&case),
                (SQUARE, _) => true,
                (Operation::Sum(0) | Operation::Dot, Expected::Accepted) => is_finite(&case),
                _ => false,
            };
            if kept {
                return Self(case);
            }
        }
    }

    /// Which of three it is: the mirror of a sum, that of a dot, a square.
    pub fn number(&self) -> usize {
        match self.0.operation {
            SQUARE => 2,
            operation => usize::from(operation == Operation::Dot),
        }
    }

    fn other(&self) -> Case {
        let mut other = self.0.clone();
        if self.0.operation == SQUARE {
            other.operation = Operation::Dot;
            other.right = other.left.clone();
            other.behind[1] = other.behind[0];
            return other;
        }
        let shape = Shape::of(other.format);
        other.left.iter_mut().for_each(|value| *value = negative(&shape, *value));
        other.settings[0] = match other.settings[0] {
            3 => 4,
            4 => 3,
            mode => mode,
        };
        other
    }

    /// Whether the record of the other is told by this one's, whose result is neither zero nor NaN.
    pub fn tells(&self, result: u64) -> bool {
        let decoded = Shape::of(self.0.format).decode(result);
        self.0.operation == SQUARE || matches!(decoded, Decoded::Infinity) || matches!(decoded, Decoded::Number { m: 1.., .. })
    }

    /// The result and the side of the other.
    fn turned(&self, result: u64, side: u8) -> (u64, u8) {
        match (self.0.operation, side) {
            (SQUARE, _) => (result, side),
            (_, 1 | 2) => (negative(&Shape::of(self.0.format), result), 3 - side),
            _ => (negative(&Shape::of(self.0.format), result), side),
        }
    }

    pub fn check(&self, bench: &mut Bench, oracle: &Oracle) -> Result<Seen, String> {
        let other = self.other();
        let seen = [bench.check(&self.0, oracle)?, bench.check(&other, oracle)?];
        match seen {
            [Seen::Refused(a), Seen::Refused(b)] if a == b => Ok(seen[0]),
            [Seen::Accepted { result, flags, passes, side, .. }, Seen::Accepted { result: r, flags: f, passes: p, side: s, .. }] => {
                let (turned, away) = self.turned(result as u64, side);
                if self.tells(result as u64) && (r, f, p, s) != (turned.into(), flags, passes, away) {
                    return Err(format!("{:x?}, and of {other}: {:x?}", seen[0], seen[1]));
                }
                Ok(seen[0])
            }
            _ => Err(format!("{:?}, and of {other}: {:?}", seen[0], seen[1])),
        }
    }
}

fn is_finite(case: &Case) -> bool {
    let shape = Shape::of(case.format);
    case.left.iter().chain(&case.right).all(|&value| matches!(shape.decode(value), Decoded::Number { .. }))
}

impl fmt::Display for Habit {
    fn fmt(&self, out: &mut fmt::Formatter) -> fmt::Result {
        write!(out, "{} and {}", self.0, if self.0.operation == SQUARE { "the dot of the list with itself" } else { "its mirror" })
    }
}

#[cfg(test)]
mod tests {
    use super::{Habit, SQUARE};
    use crate::case::{Case, Format, Operation};
    use crate::check::{Answer, Bench, Dot, Oracle, Sum};
    use crate::entries;
    use crate::rng::Rng;

    const FORMATS: [Format; 6] = [
        Format::plain([0, 5, 16]),
        Format::plain([1, 4, 8]),
        Format::plain([2, 4, 8]),
        Format::plain([3, 2, 4]),
        Format::plain([0, 11, 64]),
        Format::biased([2, 5, 16], -40),
    ];

    /// The first case drawn, if there is one, in which the habits of these entries show. The original is as wrong as they are.
    fn caught(sum: Sum, dot: Dot) -> Option<String> {
        let original = |case: &Case| {
            let mut answer = [0; 24];
            let bytes = fermuzhai::raw::bytes;
            match case.operation {
                Operation::Sum(summand) => sum(case.format, case.settings, summand, &bytes(&case.left), &mut answer),
                Operation::Dot => dot(case.format, case.settings, &bytes(&case.left), &bytes(&case.right), &mut answer),
            };
            let word = |at: usize| u64::from_le_bytes(answer[at..at + 8].try_into().unwrap());
            Answer { result: word(0), flags: answer[8], passes: word(16) }
        };
        let oracle = Oracle { formats: vec![], total: &original, extended: &|_| unreachable!("no habit has values of ten bytes") };
        let mut bench = Bench::with(sum, dot);
        (0..20_000).find_map(|number| {
            let habit = Habit::draw(&mut Rng::new(11, 11, number), FORMATS[number as usize % FORMATS.len()]);
            habit.check(&mut bench, &oracle).err().map(|what| format!("case {number}, {habit}: {what}"))
        })
    }

    #[test]
    fn the_archive_keeps_both() {
        assert_eq!(caught(entries::sum, entries::dot), None);
    }

    /// The number of passes is one more of a sum in the mode toward negative.
    #[test]
    fn a_mode_that_is_not_exchanged_is_caught() {
        let sum: Sum = |f, c, u, values, answer| {
            let code = entries::sum(f, c, u, values, answer);
            answer[16] += u8::from(code == 0 && c[0] == 4);
            code
        };
        assert!(caught(sum, entries::dot).is_some());
    }

    /// A flag more where the left list is one negative value.
    #[test]
    fn a_dot_that_sees_a_sign_is_caught() {
        let dot: Dot = |f, c, left, right, answer| {
            let code = entries::dot(f, c, left, right, answer);
            if let (0, Ok(first)) = (code, left.try_into()) {
                answer[8] |= (u64::from_le_bytes(first) >> (f.width() - 1) << 1) as u8;
            }
            code
        };
        assert!(caught(entries::sum, dot).is_some());
    }

    /// The squares alone take a pass more.
    #[test]
    fn a_square_sum_beside_its_dot_is_caught() {
        let sum: Sum = |f, c, u, values, answer| {
            let code = entries::sum(f, c, u, values, answer);
            answer[16] += u8::from(code == 0 && u == 2);
            code
        };
        assert!(caught(sum, entries::dot).is_some_and(|what| what.contains("the dot of the list with itself")));
    }

    #[test]
    fn a_mirror_is_told_by_a_number_or_an_infinity() {
        let habit = |format, operation| Habit(Case::new(format, [0; 8], operation));
        let sum = habit(FORMATS[0], Operation::Sum(0));
        assert!(sum.tells(1) && sum.tells(0x7c00) && !sum.tells(0x8000) && !sum.tells(0x7e00));
        assert!(!habit(FORMATS[2], Operation::Dot).tells(0x80));
        assert!(habit(FORMATS[0], SQUARE).tells(0));
        let mut zero = habit(FORMATS[2], Operation::Sum(0));
        zero.0.left = vec![0, 0x38];
        assert_eq!(zero.other().left, [0, 0xb8]);
    }
}
