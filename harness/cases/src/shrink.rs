//! The smallest case that still differs: elements are dropped, then settings cleared, for as long as a difference stays.

use crate::case::{Case, Operation};

/// Shrinks a case. `differs` says whether a case shows a difference.
pub fn shrink<V: Copy>(case: Case<V>, differs: &mut dyn FnMut(&Case<V>) -> bool) -> Case<V> {
    let mut smallest = case;
    loop {
        let dropped = drop_elements(&mut smallest, differs);
        let cleared = clear_settings(&mut smallest, differs);
        if !dropped && !cleared {
            return smallest;
        }
    }
}

/// Takes the smaller case if it still differs.
fn take<V>(smallest: &mut Case<V>, smaller: Case<V>, differs: &mut dyn FnMut(&Case<V>) -> bool) -> bool {
    let taken = differs(&smaller);
    if taken {
        *smallest = smaller;
    }
    taken
}

fn without<V: Copy>(list: &[V], from: usize, count: usize) -> Vec<V> {
    let from = from.min(list.len());
    let to = (from + count).min(list.len());
    [&list[..from], &list[to..]].concat()
}

/// Drops runs of elements: half the list at a time, then a quarter, down to one by one.
pub fn drop_elements<V: Copy>(smallest: &mut Case<V>, differs: &mut dyn FnMut(&Case<V>) -> bool) -> bool {
    let length = |case: &Case<V>| case.left.len().max(case.right.len());
    let mut dropped = false;
    let mut count = length(smallest).div_ceil(2);
    while count > 0 {
        let mut from = 0;
        while from < length(smallest) {
            let left = without(&smallest.left, from, count);
            let right = without(&smallest.right, from, count);
            if take(smallest, Case { left, right, ..smallest.clone() }, differs) {
                dropped = true;
            } else {
                from += count;
            }
        }
        count /= 2;
    }
    dropped
}

/// Sets each setting, the summand and the form of the call to the plainest that still differs.
pub fn clear_settings<V: Copy>(smallest: &mut Case<V>, differs: &mut dyn FnMut(&Case<V>) -> bool) -> bool {
    let mut cleared = false;
    for i in 0..smallest.settings.len() {
        if smallest.settings[i] != 0 {
            let mut smaller = smallest.clone();
            smaller.settings[i] = 0;
            cleared |= take(smallest, smaller, differs);
        }
    }
    if matches!(smallest.operation, Operation::Sum(summand) if summand != 0) {
        cleared |= take(smallest, Case { operation: Operation::Sum(0), ..smallest.clone() }, differs);
    }
    if smallest.behind != [0; 2] {
        cleared |= take(smallest, Case { behind: [0; 2], ..smallest.clone() }, differs);
    }
    for room in [24, 32] {
        if smallest.room > room {
            cleared |= take(smallest, Case { room, ..smallest.clone() }, differs);
        }
    }
    cleared
}
