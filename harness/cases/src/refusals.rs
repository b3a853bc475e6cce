//! The specification's table of refusals, read row by row for the two byte entries.

use crate::case::{Case, Format, LIMIT, Operation};
use crate::check::Value;

/// What the entry is to return.
#[derive(Clone, Copy, Debug, PartialEq, Eq)]
pub enum Expected {
    Accepted,
    /// Numbers 1 to 6: place 0.
    Refused(u64),
    /// Number 7: the place is that of an element of this list that does not fit the width.
    Stray(Side),
}

#[derive(Clone, Copy, Debug, PartialEq, Eq)]
pub enum Side {
    Left,
    Right,
}

/// The largest bias that may be named, and the magnitude of the least.
pub const LARGEST_BIAS: i64 = 1 << 28;

/// 3: a kind, a width or a named bias out of its range.
pub fn no_format(format: Format) -> bool {
    let [kind, e, w] = format.numbers;
    let no_bias = format.bias.is_some_and(|bias| !(-LARGEST_BIAS..=LARGEST_BIAS).contains(&bias));
    kind > 3 || !(2..=28).contains(&e) || w < e + 2 || w > 64 || no_bias
}

/// 4: a setting or the summand is too large. The format is one.
fn out_of_range(case: &Case) -> bool {
    let [_, e, w] = case.format.numbers;
    let highest = [7, 1, 3, 1, 1, 1, 1, w - e];
    let setting = case.settings.iter().zip(highest).any(|(&value, high)| value > high);
    setting || matches!(case.operation, Operation::Sum(summand) if summand > 2)
}

/// Whether a value does not fit the width.
pub fn is_stray(value: u64, width: u64) -> bool {
    width < 64 && value >> width != 0
}

/// 1 and 2. Kind 4, whatever else is named with it, has ten bytes a value and 32 of answer, where the others have 8 and 24.
pub fn refused_by_bytes<V: Value>(case: &Case<V>) -> Option<u64> {
    let (size, answer) = if case.format.numbers[0] == 4 { (10, 32) } else { (8, 24) };
    let uneven = |list: &[V], behind: usize| (V::SIZE * list.len() + behind) % size != 0;
    if uneven(&case.left, case.behind[0]) || case.is_dot() && uneven(&case.right, case.behind[1]) {
        return Some(1);
    }
    (case.room < answer).then_some(2)
}

/// The lowest number whose condition holds.
pub fn expected(case: &Case) -> Expected {
    match refused_by_bytes(case) {
        Some(number) => Expected::Refused(number),
        None => expected_of_values(case),
    }
}

/// The same without 1 and 2.
pub fn expected_of_values(case: &Case) -> Expected {
    let dot = case.is_dot();
    let width = case.format.width();
    if no_format(case.format) {
        return Expected::Refused(3);
    }
    if out_of_range(case) {
        return Expected::Refused(4);
    }
    if dot && case.left.len() != case.right.len() {
        return Expected::Refused(5);
    }
    if case.left.len() > LIMIT {
        return Expected::Refused(6);
    }
    if case.left.iter().any(|&value| is_stray(value, width)) {
        return Expected::Stray(Side::Left);
    }
    if dot && case.right.iter().any(|&value| is_stray(value, width)) {
        return Expected::Stray(Side::Right);
    }
    Expected::Accepted
}
