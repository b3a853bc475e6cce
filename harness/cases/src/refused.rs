//! Calls that break one or more rows of the specification's table, by as little as possible or by a lot.

use crate::case::{Case, Format, Operation};
use crate::lists::random;
use crate::rng::Rng;

/// A number that is just above `highest`, far above it, or equal to an allowed number in its low bits alone.
pub fn above(rng: &mut Rng, highest: u64) -> u64 {
    let allowed = rng.below(highest + 1);
    rng.pick(&[highest + 1, highest + 2, 255, 256 + allowed, (1 << 32) + allowed, (1 << 63) + allowed, u64::MAX])
}

/// A call with up to three faults. Without one it is accepted, and compared as any other.
pub fn refused(rng: &mut Rng, format: Format) -> Case {
    let mut case = random(rng, format);
    for _ in 0..rng.below(4) {
        match rng.below(7) {
            0 => break_length(rng, &mut case),
            1 => case.room = if rng.once_in(3) { 23 } else { rng.below(25) as usize },
            2 => break_format(rng, &mut case, format.numbers),
            3 | 4 => break_setting(rng, &mut case, format.numbers),
            5 => break_pairing(rng, &mut case),
            _ => put_stray_bit(rng, &mut case, format.width()),
        }
    }
    case
}

fn break_length(rng: &mut Rng, case: &mut Case) {
    let side = if case.is_dot() { rng.below(2) as usize } else { 0 };
    case.behind[side] = 1 + rng.below(7) as usize;
}

/// Always into what is no format: the original has not every format compiled.
pub fn break_format(rng: &mut Rng, case: &mut Case, [kind, e, w]: [u64; 3]) {
    case.format.numbers = match rng.below(3) {
        0 => [above(rng, 3), e, w],
        1 => [kind, rng.pick(&[0, 1, 29, 30, 64, 256 + e, (1 << 32) + e, u64::MAX]), w],
        _ => [kind, e, rng.pick(&[0, e, e + 1, 65, 66, 128, 256 + w, (1 << 32) + w, u64::MAX])],
    };
}

pub fn break_setting(rng: &mut Rng, case: &mut Case, [_, e, w]: [u64; 3]) {
    let highest = [7, 1, 3, 1, 1, 1, 1, w - e];
    let i = rng.below(9) as usize;
    match case.operation {
        Operation::Sum(_) if i == 8 => case.operation = Operation::Sum(above(rng, 2)),
        _ => case.settings[i % 8] = above(rng, highest[i % 8]),
    }
}

fn break_pairing(rng: &mut Rng, case: &mut Case) {
    if !case.is_dot() {
        return;
    }
    let list = if rng.bit() { &mut case.left } else { &mut case.right };
    if rng.bit() {
        list.push(1);
    } else {
        list.pop();
    }
}

/// Sets a bit that does not fit the width, at one end of the range or anywhere between, in one element or two.
pub fn put_stray_bit(rng: &mut Rng, case: &mut Case, width: u64) {
    if width >= 64 {
        return;
    }
    for _ in 0..1 + rng.below(2) {
        let list = if case.is_dot() && rng.bit() { &mut case.right } else { &mut case.left };
        if !list.is_empty() {
            let i = rng.below(list.len() as u64) as usize;
            let between = width + rng.below(64 - width);
            list[i] |= 1 << rng.pick(&[width, 63, between]);
        }
    }
}
