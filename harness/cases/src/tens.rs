//! Lists of values of ten bytes that are drawn.

use crate::case::{Case, Format, Operation};
use crate::draw::{length, operation, settings};
use crate::extended::{DIGITS, Extended, FORMAT, LEADING, SIGN, TOP_FIELD, fields, number};
use crate::lists::lengthen;
use crate::refused::above;
use crate::rng::Rng;
use crate::shape::Encodings;
use crate::terms::Builder;

/// The bit that makes a NaN quiet.
const QUIET: u64 = 1 << 62;

/// A call without values.
fn empty_case(rng: &mut Rng, operation: Operation) -> Case<u128> {
    let mut case = Case::new(FORMAT, settings(rng, DIGITS), operation);
    case.room = 32 + rng.below(24) as usize;
    case.fill = rng.next() as u8;
    case.order = rng.next();
    case
}

/// Values of one list, near one exponent field.
struct Near {
    centre: i64,
    spread: i64,
}

impl Near {
    fn new(rng: &mut Rng) -> Self {
        let any = rng.between(0, 32766);
        let centre = match rng.below(6) {
            0 => rng.between(0, 3),
            1 => 32766 - rng.between(0, 3),
            2 => 16383 + rng.between(-70, 70),
            // half way to the least and to the largest: squares and products come near both ends
            3 => 8191 + rng.between(-40, 40),
            4 => 24574 + rng.between(-3, 3),
            _ => any,
        };
        Self { centre, spread: rng.pick(&[0, 1, 3, 64, 128, 70, 640, 705, 770, 1500, 3000, 32766]) }
    }

    fn any_field(&self, rng: &mut Rng) -> u64 {
        rng.between((self.centre - self.spread).max(0), (self.centre + self.spread).min(32766)) as u64
    }

    /// A magnitude near the centre; its significand is often a single bit or all ones. Over a field of 0 the leading bit may be set or not.
    fn near_centre(&self, rng: &mut Rng) -> u128 {
        let field = self.any_field(rng);
        let fraction = match rng.below(8) {
            0 => 0,
            1 => u64::MAX,
            2 => 1,
            3 => 1 << rng.below(63),
            4 => u64::MAX << rng.below(63),
            _ => rng.next(),
        };
        fields(field, if field == 0 { fraction } else { fraction | LEADING })
    }

    fn at_an_end(rng: &mut Rng) -> u128 {
        let least = fields(1, LEADING);
        let largest = fields(TOP_FIELD - 1, u64::MAX);
        let denormals = [0, 1, 2, u128::from(LEADING - 1), u128::from(LEADING), u128::from(LEADING + 1), u128::from(u64::MAX)];
        if rng.bit() { rng.pick(&denormals) } else { rng.pick(&[least, least + 1, largest, largest - 1]) }
    }

    /// Twice a magnitude, half of it, or it with a significand of one more or one less, if that is a number.
    fn beside(rng: &mut Rng, magnitude: u128) -> Option<u128> {
        let (_, m, k) = number(magnitude).filter(|&(_, m, _)| m > 1 && m < u64::MAX)?;
        let (m, k) = match rng.below(4) {
            0 => (m, k + 1),
            1 => (m, (k - 1).max(0)),
            2 => (m + 1, k),
            _ => (m - 1, k),
        };
        Extended.encode(m, k)
    }

    /// A finite value with either sign, or one made from an earlier value.
    fn value(&self, rng: &mut Rng, earlier: &[u128]) -> u128 {
        let former = if earlier.is_empty() { None } else { Some(rng.pick(earlier) & (SIGN - 1)) };
        let made = match (rng.below(12), former) {
            (0 | 1, Some(x)) => number(x).map(|_| x),
            (2..=4, Some(x)) => Self::beside(rng, x),
            (5, _) if self.spread > 3000 || self.centre < 3000 || self.centre > 29766 => Some(Self::at_an_end(rng)),
            _ => None,
        };
        let magnitude = made.unwrap_or_else(|| self.near_centre(rng));
        Extended.signed(rng.bit(), magnitude)
    }
}

fn put_near(rng: &mut Rng, case: &mut Case<u128>, count: usize) {
    let (left, right) = (Near::new(rng), Near::new(rng));
    for _ in 0..count {
        let value = left.value(rng, &case.left);
        case.left.push(value);
        if case.is_dot() {
            let value = right.value(rng, &case.right);
            case.right.push(value);
        }
    }
}

/// Values near each other, or any bits at all.
fn random(rng: &mut Rng) -> Case<u128> {
    let operation = operation(rng);
    let mut case = empty_case(rng, operation);
    let count = length(rng);
    if rng.once_in(6) {
        let any = |rng: &mut Rng| u128::from(rng.below(1 << 16)) << 64 | u128::from(rng.next());
        case.left = (0..count).map(|_| any(rng)).collect();
        case.right = if case.is_dot() { (0..count).map(|_| any(rng)).collect() } else { vec![] };
    } else {
        put_near(rng, &mut case, count);
    }
    case
}

/// Ties, those at the ends of the results among them, or chains of passes.
fn built(rng: &mut Rng, tie: bool) -> Case<u128> {
    let operation = operation(rng);
    let mut case = empty_case(rng, operation);
    let at_ends = rng.once_in(3);
    let mut builder = Builder::of(rng, &mut case, Extended);
    if tie {
        builder.tie(at_ends);
    } else {
        builder.chain();
    }
    case
}

/// A list, most of its negatives in another order, and a few values more.
fn cancellations(rng: &mut Rng) -> Case<u128> {
    let operation = if rng.bit() { Operation::Sum(0) } else { Operation::Dot };
    let mut case = empty_case(rng, operation);
    let count = 1 + rng.below(8) as usize;
    put_near(rng, &mut case, count);
    let mut back: Vec<usize> = (0..count.saturating_sub(rng.below(4) as usize)).collect();
    rng.shuffle(&mut back);
    for i in back {
        case.left.push(case.left[i] ^ SIGN);
        if case.is_dot() {
            case.right.push(case.right[i]);
            let last = case.left.len() - 1;
            if rng.bit() {
                std::mem::swap(&mut case.left[last], &mut case.right[last]);
            }
        }
    }
    case
}

/// A NaN, an infinity, an unsupported encoding, a zero, a subnormal number or a pseudo-denormal.
fn special(rng: &mut Rng) -> u128 {
    let low = rng.next() >> 2;
    let below = low | if rng.bit() { QUIET } else { 0 };
    let magnitude = match rng.below(12) {
        0 | 1 => fields(TOP_FIELD, LEADING),
        2 | 3 => fields(TOP_FIELD, LEADING | QUIET | low),
        4 => fields(TOP_FIELD, LEADING | low.max(1)),
        5 => fields(1 + rng.below(TOP_FIELD), rng.pick(&[0, 1, LEADING - 1, below])),
        6 => fields(TOP_FIELD, rng.pick(&[0, 1, QUIET, below])),
        7 | 8 => 0,
        9 => fields(0, rng.below(LEADING)),
        _ => fields(0, LEADING | below),
    };
    Extended.signed(rng.bit(), magnitude)
}

/// Up to four of these among other values; in a dot their partners are such too, half of the time.
fn specials(rng: &mut Rng) -> Case<u128> {
    let operation = operation(rng);
    let mut case = empty_case(rng, operation);
    let count = if rng.once_in(4) { 0 } else { length(rng).min(8) };
    put_near(rng, &mut case, count);
    let near = Near::new(rng);
    for _ in 0..1 + rng.below(4) {
        let at = rng.below(case.left.len() as u64 + 1) as usize;
        case.left.insert(at, special(rng));
        if case.is_dot() {
            let partner = if rng.bit() { special(rng) } else { near.value(rng, &[]) };
            case.right.insert(at, partner);
        }
    }
    if case.is_dot() && rng.bit() {
        std::mem::swap(&mut case.left, &mut case.right);
    }
    case
}

/// Long lists of few different values.
fn many(rng: &mut Rng) -> Case<u128> {
    let operation = operation(rng);
    let mut case = empty_case(rng, operation);
    let different = 1 + rng.below(6) as usize;
    put_near(rng, &mut case, different);
    let count = rng.pick(&[64, 256, 1000]) + rng.below(40) as usize;
    lengthen(rng, &mut case, different, count);
    case
}

/// One of the sorts above.
pub fn any(rng: &mut Rng, _: Format) -> Case<u128> {
    if rng.once_in(500) {
        return many(rng);
    }
    match rng.below(16) {
        0..=4 => random(rng),
        5..=8 => built(rng, true),
        9 | 10 => built(rng, false),
        11..=12 => cancellations(rng),
        _ => specials(rng),
    }
}

/// Calls with up to three faults. Without one it is accepted, and compared as any other.
pub fn refused(rng: &mut Rng, format: Format) -> Case<u128> {
    let mut case = any(rng, format);
    for _ in 0..rng.below(4) {
        match rng.below(7) {
            0 => case.behind[usize::from(case.is_dot() && rng.bit())] = 1 + rng.below(9) as usize,
            1 => case.room = if rng.once_in(3) { 31 } else { rng.below(33) as usize },
            2 => case.format.bias = Some(rng.pick(&[0, 1, -1, 16383, 1 << 28, i64::MIN, i64::MAX])),
            3 => break_format(rng, &mut case),
            4 | 5 => break_setting(rng, &mut case),
            _ if case.is_dot() => drop(if rng.bit() { case.left.pop() } else { case.right.pop() }),
            _ => {}
        }
    }
    case
}

fn break_format(rng: &mut Rng, case: &mut Case<u128>) {
    case.format.numbers = match rng.below(3) {
        0 => [rng.pick(&[0, 1, 2, 3, 5, 6, 255, 260, (1 << 32) + 4, u64::MAX]), 15, 80],
        1 => [4, rng.pick(&[0, 2, 5, 8, 11, 14, 16, 28, 79, 271, (1 << 32) + 15, u64::MAX]), 80],
        _ => [4, 15, rng.pick(&[0, 16, 17, 32, 64, 78, 79, 81, 96, 128, 336, (1 << 32) + 80, u64::MAX])],
    };
}

fn break_setting(rng: &mut Rng, case: &mut Case<u128>) {
    let highest = [7, 1, 3, 1, 1, 1, 1, u64::from(DIGITS)];
    let i = rng.below(9) as usize;
    match case.operation {
        Operation::Sum(_) if i == 8 => case.operation = Operation::Sum(above(rng, 2)),
        _ => case.settings[i % 8] = above(rng, highest[i % 8]),
    }
}

#[cfg(test)]
mod tests {
    use super::{any, refused};
    use crate::case::Format;
    use crate::check::tests::{archive, archive_extended};
    use crate::check::{Bench, Dot, Oracle, Sum};
    use crate::entries;
    use crate::extended::FORMAT;
    use crate::rng::Rng;

    /// Whether some drawn case shows that these are not the archive's entries.
    fn is_caught(sum: Sum, dot: Dot) -> bool {
        let oracle = Oracle { formats: vec![], total: &archive, extended: &archive_extended };
        let mut bench = Bench::with(sum, dot);
        (0..20_000).any(|number| {
            let rng = &mut Rng::new(7, 9, number);
            let case = if number % 2 == 0 { any(rng, FORMAT) } else { refused(rng, FORMAT) };
            bench.check(&case, &oracle).is_err()
        })
    }

    /// The sum of the archive, and what a wrong one would do to an accepted answer.
    fn spoils(spoil: fn(&mut [u8]), code: u64, answer: &mut [u8]) -> u64 {
        if code == 0 {
            spoil(answer);
        }
        code
    }

    #[test]
    fn wrong_entries_are_caught() {
        assert!(!is_caught(entries::sum, entries::dot));
        // flags and side exchanged, a byte behind the side, a byte beyond the answer, passes eight bytes early
        assert!(is_caught(|f, c, u, x, a| spoils(|a| a.swap(10, 11), entries::sum(f, c, u, x, a), a), entries::dot));
        assert!(is_caught(|f, c, u, x, a| spoils(|a| a[12] = 1, entries::sum(f, c, u, x, a), a), entries::dot));
        assert!(is_caught(entries::sum, |f, c, x, y, a| spoils(|a| a[23] = 1, entries::dot(f, c, x, y, a), a)));
        assert!(is_caught(entries::sum, |f, c, x, y, a| spoils(
            |a| a.iter_mut().skip(32).take(1).for_each(|b| *b ^= 1),
            entries::dot(f, c, x, y, a),
            a
        )));
        assert!(is_caught(|f, c, u, x, a| spoils(|a| a.copy_within(24..32, 16), entries::sum(f, c, u, x, a), a), entries::dot));
        // refusals: 1 by eights, 2 at 32 bytes, 65 digits, a bias taken for none, the right list not asked
        assert!(is_caught(|f, c, u, x, a| if x.len() % 8 != 0 { 1 } else { entries::sum(f, c, u, x, a) }, entries::dot));
        assert!(is_caught(|f, c, u, x, a| if a.len() < 33 { 2 } else { entries::sum(f, c, u, x, a) }, entries::dot));
        assert!(is_caught(|f, c, u, x, a| entries::sum(f, [c[0], c[1], c[2], c[3], c[4], c[5], c[6], c[7].min(64)], u, x, a), entries::dot));
        assert!(is_caught(|f, c, u, x, a| entries::sum(Format { bias: None, ..f }, c, u, x, a), entries::dot));
        assert!(is_caught(entries::sum, |f, c, x, y, a| entries::dot(f, c, x, &y[..y.len() - y.len() % 10], a)));
        // of two values the first alone
        assert!(is_caught(|f, c, u, x, a| entries::sum(f, c, u, if x.len() == 20 { &x[..10] } else { x }, a), entries::dot));
    }
}
