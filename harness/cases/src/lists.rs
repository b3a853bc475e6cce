//! The lists that are drawn, group by group.

use crate::case::{Case, Format, Operation};
use crate::draw::{Near, empty_case, is_wide, length, operation};
use crate::rng::Rng;
use crate::shape::Shape;
use crate::terms::Builder;

/// Values near each other; in a dot each list has its own place.
fn put_lists(rng: &mut Rng, case: &mut Case, count: usize) {
    let shape = Shape::of(case.format);
    let (left, right) = (Near::new(rng, shape), Near::new(rng, shape));
    put_near(rng, case, count, &left, &right);
}

fn put_near(rng: &mut Rng, case: &mut Case, count: usize, left: &Near, right: &Near) {
    for _ in 0..count {
        let value = left.value(rng, &case.left);
        case.left.push(value);
        if case.is_dot() {
            let value = right.value(rng, &case.right);
            case.right.push(value);
        }
    }
}

/// Values near each other, or any bits at all.
pub fn random(rng: &mut Rng, format: Format) -> Case {
    let operation = operation(rng);
    let mut case = empty_case(rng, format, operation);
    let count = length(rng);
    if !is_wide(format) && rng.once_in(6) {
        let bits = |rng: &mut Rng| rng.next() >> (64 - format.width());
        case.left = (0..count).map(|_| bits(rng)).collect();
        case.right = if case.is_dot() { (0..count).map(|_| bits(rng)).collect() } else { vec![] };
    } else {
        put_lists(rng, &mut case, count);
    }
    case
}

/// Ties, and what lies beside them.
pub fn ties(rng: &mut Rng, format: Format) -> Case {
    tie(rng, format, false)
}

/// The same at the largest results and at the least ones.
pub fn ties_at_the_ends(rng: &mut Rng, format: Format) -> Case {
    tie(rng, format, true)
}

fn tie(rng: &mut Rng, format: Format, at_ends: bool) -> Case {
    let operation = operation(rng);
    let mut case = empty_case(rng, format, operation);
    Builder::new(rng, &mut case).tie(at_ends);
    case
}

/// Chains of passes.
pub fn chains(rng: &mut Rng, format: Format) -> Case {
    let operation = operation(rng);
    let mut case = empty_case(rng, format, operation);
    Builder::new(rng, &mut case).chain();
    case
}

/// Terms so far apart that the chain has many passes in which no term is seen.
pub fn wide(rng: &mut Rng, format: Format) -> Case {
    let operation = if rng.bit() { Operation::Sum(0) } else { Operation::Dot };
    let mut case = empty_case(rng, format, operation);
    Builder::new(rng, &mut case).wide();
    case
}

/// A list, the negatives of its values in another order, and a few values more.
pub fn cancellations(rng: &mut Rng, format: Format) -> Case {
    let operation = if rng.bit() { Operation::Sum(0) } else { Operation::Dot };
    let mut case = empty_case(rng, format, operation);
    let count = 1 + rng.below(8) as usize;
    put_lists(rng, &mut case, count);
    let extra = rng.below(4) as usize;
    let mut back: Vec<usize> = (0..count - extra.min(count)).collect();
    rng.shuffle(&mut back);
    for i in back {
        negate(rng, &mut case, i);
    }
    case
}

/// The negative of a value, or the value itself where that would be the NaN of its kind.
pub fn negative(shape: &Shape, value: u64) -> u64 {
    if shape.is_nan(value ^ shape.sign) { value } else { value ^ shape.sign }
}

/// Adds the negative of element i; of pair i, in a dot: either sign changed, the sides changed, or a factor of two moved to the other side.
fn negate(rng: &mut Rng, case: &mut Case, i: usize) {
    let shape = Shape::of(case.format);
    let flip = |value: u64| negative(&shape, value);
    if !case.is_dot() {
        case.left.push(flip(case.left[i]));
        return;
    }
    let (x, y) = (case.left[i], case.right[i]);
    let moved = (x.wrapping_add(shape.least_normal()), y.wrapping_sub(shape.least_normal()));
    let is_normal = |value: u64| (shape.least_normal()..=shape.largest).contains(&(value & (shape.sign - 1)));
    let can_move = [x, y, moved.0, moved.1].into_iter().all(is_normal) && (moved.0 ^ x) & shape.sign == 0 && (moved.1 ^ y) & shape.sign == 0;
    let (x, y) = if can_move && rng.once_in(3) { moved } else { (x, y) };
    let (x, y) = if rng.bit() { (flip(x), y) } else { (x, flip(y)) };
    let (x, y) = if rng.bit() { (x, y) } else { (y, x) };
    case.left.push(x);
    case.right.push(y);
}

/// Lists with infinities, NaNs, zeros and subnormal numbers. In a wide format subnormal numbers stand only among small ones.
pub fn specials(rng: &mut Rng, format: Format) -> Case {
    let operation = operation(rng);
    let mut case = empty_case(rng, format, operation);
    let low = is_wide(format) && rng.bit();
    let shape = Shape::of(format);
    let mut near = || if low { Near::low(rng, shape) } else { Near::new(rng, shape) };
    let (left, right) = (near(), near());
    // lists of zeros alone have rules of their own
    let count = if rng.once_in(4) { 0 } else { length(rng).min(8) };
    put_near(rng, &mut case, count, &left, &right);
    for _ in 0..1 + rng.below(4) {
        sprinkle(rng, &mut case, low || !is_wide(format), &right);
    }
    if case.is_dot() && rng.bit() {
        std::mem::swap(&mut case.left, &mut case.right);
    }
    case
}

/// Adds a special value at a random place; in a dot its partner is special too half of the time.
fn sprinkle(rng: &mut Rng, case: &mut Case, subnormal: bool, right: &Near) {
    let at = rng.below(case.left.len() as u64 + 1) as usize;
    case.left.insert(at, special(rng, &right.shape, subnormal));
    if case.is_dot() {
        let partner = if rng.bit() { special(rng, &right.shape, subnormal) } else { right.value(rng, &[]) };
        case.right.insert(at, partner);
    }
}

pub fn special(rng: &mut Rng, shape: &Shape, subnormal: bool) -> u64 {
    let sign = if rng.bit() { shape.sign } else { 0 };
    match rng.below(8) {
        0..=3 => shape.special(rng.next()),
        4 | 5 if subnormal => sign | rng.below(shape.least_normal()),
        _ => sign,
    }
}

/// Long lists of few different values, so that carries run far and lost bits add up.
pub fn many(rng: &mut Rng, format: Format) -> Case {
    let operation = operation(rng);
    let mut case = empty_case(rng, format, operation);
    let different = 1 + rng.below(6) as usize;
    put_lists(rng, &mut case, different);
    let count = rng.pick(&[64, 256, 1000, 4000]) + rng.below(40) as usize;
    lengthen(rng, &mut case, different, count);
    case
}

/// Repeats the first values, or pairs, until there are so many.
pub fn lengthen<V: Copy>(rng: &mut Rng, case: &mut Case<V>, different: usize, count: usize) {
    while case.left.len() < count {
        let i = rng.below(different as u64) as usize;
        case.left.push(case.left[i]);
        if case.is_dot() {
            case.right.push(case.right[i]);
        }
    }
}

/// Lists of about 1,048,576 elements: from one less to two more.
pub fn million(rng: &mut Rng, format: Format) -> Case {
    let operation = operation(rng);
    let mut case = empty_case(rng, format, operation);
    let different = 1 + rng.below(3) as usize;
    put_lists(rng, &mut case, different);
    let count = (1 << 20) - 1 + rng.below(4) as usize;
    lengthen(rng, &mut case, different, count);
    match rng.below(6) {
        // 5 and 7
        0 if case.is_dot() => drop(case.right.pop()),
        1 if format.width() < 64 => case.left[count / 2] |= 1 << format.width(),
        _ => {}
    }
    case
}
