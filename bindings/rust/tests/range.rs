//! The lower and the upper total of amounts known within a range, through `raw` and through the
//! free function. The expectations are the neighbours of exact sums, worked out by hand or in whole
//! numbers of 128 bits; over all finite numbers, what the plain sum gives for the lows and for the
//! highs.

mod draw;

use draw::Draw;
use fermuzhai::Amount::{self, Between, Known, Missing};
use fermuzhai::{range, raw, Refusal, Rounding, Settings, Totals};

const LIMIT: usize = 1 << 28;
const GUARD: u64 = 0xa5a5_a5a5_a5a5_a5a5;
const MAX: f64 = f64::MAX;
const LEAST: f64 = f64::from_bits(1);
const INFINITY: u64 = 0x7ff0_0000_0000_0000;
const MINUS: u64 = 1 << 63;

/// What the figures that are not used may hold: zeros of either sign, infinities, quiet and
/// signaling NaNs, a number.
const UNUSED: [u64; 7] = [
    0,
    MINUS,
    INFINITY,
    MINUS | INFINITY,
    u64::MAX,
    INFINITY | 1,
    0x4059_0000_0000_0000,
];

/// 2^n, for a normal number.
fn power(n: i64) -> f64 {
    f64::from_bits(((n + 1023) as u64) << 52)
}

/// The least and the greatest amount, as encodings.
fn lows_and_highs(amounts: &[Amount], ceiling: f64) -> (Vec<u64>, Vec<u64>) {
    let ends = amounts.iter().map(|&amount| match amount {
        Known(x) => (x, x),
        Between(low, high) => (low, high),
        Missing => (0.0, ceiling),
    });
    ends.map(|(low, high)| (low.to_bits(), high.to_bits()))
        .unzip()
}

/// The three lists, with a word of the caller's where a figure is not used.
fn lists(amounts: &[Amount], unused: u64) -> [Vec<u64>; 3] {
    let of = |tag: u64, first, second| [tag, first, second];
    let entries = amounts.iter().map(|&amount| match amount {
        Known(x) => of(0, x.to_bits(), unused),
        Between(low, high) => of(1, low.to_bits(), high.to_bits()),
        Missing => of(2, unused, unused),
    });
    let entries: Vec<[u64; 3]> = entries.collect();
    [0, 1, 2].map(|i| entries.iter().map(|entry| entry[i]).collect())
}

/// Every way to the pair: it is this, by its encodings; the lists are left with the lows and the
/// highs, and nothing is written beyond the pair.
fn check(amounts: &[Amount], ceiling: f64, lower: u64, upper: u64) {
    let what = || format!("{amounts:?} under {ceiling}");
    let (a, b) = range(amounts, ceiling).unwrap();
    assert_eq!([a.to_bits(), b.to_bits()], [lower, upper], "{}", what());

    let (lows, highs) = lows_and_highs(amounts, ceiling);
    for unused in UNUSED {
        let [tags, mut first, mut second] = lists(amounts, unused);
        // again with the lists as they are left, which stand for the same amounts
        for _ in 0..2 {
            let mut pair = [GUARD; 4];
            let code = raw::range(&tags, &mut first, &mut second, ceiling.to_bits(), &mut pair);
            assert_eq!(code, 0, "{}", what());
            assert_eq!(pair, [lower, upper, GUARD, GUARD], "{}", what());
            assert_eq!(first, lows, "{}", what());
            assert_eq!(second, highs, "{}", what());
        }
    }
}

/// Refused with 11 on every way, and nothing is written.
fn check_bad(amounts: &[Amount], ceiling: f64) {
    assert_eq!(
        range(amounts, ceiling),
        Err(Refusal::BadAmount),
        "{amounts:?} under {ceiling}"
    );
    for unused in UNUSED {
        let [tags, first, second] = lists(amounts, unused);
        check_untouched(&tags, &first, &second, ceiling.to_bits(), 2, 11);
    }
}

/// The code of a refused call, which leaves the two lists and the pair as they were.
fn check_untouched(
    tags: &[u64],
    first: &[u64],
    second: &[u64],
    ceiling: u64,
    room: usize,
    code: u64,
) {
    let (mut a, mut b, mut pair) = (first.to_vec(), second.to_vec(), vec![GUARD; room]);
    assert_eq!(raw::range(tags, &mut a, &mut b, ceiling, &mut pair), code);
    assert!(a == first && b == second, "refused with {code}");
    assert_eq!(pair, vec![GUARD; room], "refused with {code}");
}

#[test]
fn pairs() {
    let [one, after_one] = [0x3ff0_0000_0000_0000, 0x3ff0_0000_0000_0001];
    let [max, minus_max] = [0x7fef_ffff_ffff_ffff, 0xffef_ffff_ffff_ffff];
    #[rustfmt::skip]
    let rows: [(&[Amount], f64, u64, u64); 31] = [
        (&[], 0.0, 0, 0),
        (&[], 1000.0, 0, 0),
        (&[Known(1.0)], 0.0, one, one),
        (&[Known(1.0), Known(power(-53))], 0.0, one, after_one),
        (&[Known(1.0), Known(LEAST)], 0.0, one, after_one),
        (&[Known(1.0), Known(-LEAST)], 0.0, one - 1, one),
        (&[Known(-1.0), Known(LEAST)], 0.0, MINUS | one, MINUS | (one - 1)),
        (&[Known(-1.0), Known(-LEAST)], 0.0, MINUS | after_one, MINUS | one),
        (&[Known(1e300), Known(1.0), Known(-1e300)], 0.0, one, one),
        (&[Between(-100.0, 200.0), Missing], 1000.0, 0xc059_0000_0000_0000, 0x4092_c000_0000_0000),
        (&[Missing], 1.0, 0, one),
        (&[Missing, Missing], 0.5, 0, one),
        (&[Missing, Known(1.0)], 0.0, one, one),
        (&[Missing, Known(1.0)], LEAST, one, after_one),
        (&[Between(1.0, 1.0)], 0.0, one, one),
        (&[Between(-1.0, 1.0), Between(-1.0, 1.0)], 0.0, 0xc000_0000_0000_0000, 0x4000_0000_0000_0000),
        // what is too large for a double, by the least number too
        (&[Known(MAX)], 0.0, max, max),
        (&[Known(MAX), Known(MAX)], 0.0, max, INFINITY),
        (&[Known(MAX), Known(LEAST)], 0.0, max, INFINITY),
        (&[Known(MAX), Known(-LEAST)], 0.0, max - 1, max),
        (&[Known(-MAX), Known(-MAX)], 0.0, MINUS | INFINITY, minus_max),
        (&[Known(-MAX), Known(-LEAST)], 0.0, MINUS | INFINITY, minus_max),
        (&[Between(-MAX, MAX)], 0.0, minus_max, max),
        (&[Between(-MAX, MAX), Between(-MAX, MAX)], 0.0, MINUS | INFINITY, INFINITY),
        (&[Known(MAX), Known(MAX), Known(-MAX)], 0.0, max, max),
        (&[Missing, Missing], MAX, 0, INFINITY),
        // below the least normal number nothing is rounded
        (&[Known(LEAST)], 0.0, 1, 1),
        (&[Known(LEAST), Missing, Missing], LEAST, 1, 3),
        (&[Between(-LEAST, LEAST), Known(-LEAST)], 0.0, MINUS | 2, 0),
        (&[Known(power(-1022)), Known(-LEAST)], 0.0, (1 << 52) - 1, (1 << 52) - 1),
        (&[Known(power(-1022)), Between(-LEAST, LEAST)], 0.0, (1 << 52) - 1, (1 << 52) + 1),
    ];
    for (amounts, ceiling, lower, upper) in rows {
        check(amounts, ceiling, lower, upper);
        // mirrored: what is known and between, where nothing is missing
        if !amounts.contains(&Missing) {
            let mirrored: Vec<Amount> = amounts
                .iter()
                .map(|&amount| match amount {
                    Known(x) => Known(-x),
                    Between(low, high) => Between(-high, -low),
                    Missing => unreachable!(),
                })
                .collect();
            let negated = |total| if total == 0 { 0 } else { total ^ MINUS };
            check(&mirrored, ceiling, negated(upper), negated(lower));
        }
    }
}

/// A total of zero is +0, whatever the zeros are and however it comes about; a ceiling may be −0.
#[test]
fn zeros() {
    for ceiling in [0.0, -0.0] {
        #[rustfmt::skip]
        let lists: [&[Amount]; 11] = [
            &[Known(-0.0)],
            &[Known(0.0), Known(-0.0)],
            &[Known(-0.0), Known(-0.0)],
            &[Missing],
            &[Missing, Known(-0.0)],
            &[Between(-0.0, -0.0)],
            // equal, so no low is above its high
            &[Between(0.0, -0.0)],
            &[Between(-0.0, 0.0), Missing],
            &[Known(1.0), Known(-1.0)],
            &[Known(MAX), Missing, Known(-MAX)],
            &[Between(1.5, 2.5), Between(-1.5, -1.5), Between(-1.0, -1.0), Known(1.0), Between(-1.0, 0.0)],
        ];
        for (i, amounts) in lists.iter().enumerate() {
            // the last: from 1.5 − 1.5 − 1 + 1 − 1 to 2.5 − 1.5 − 1 + 1 + 0
            let [lower, upper] = if i == 10 { [-1.0, 1.0] } else { [0.0, 0.0] };
            check(amounts, ceiling, f64::to_bits(lower), f64::to_bits(upper));
        }
    }
    check(&[Between(-1.0, 0.0)], 0.0, (-1.0f64).to_bits(), 0);
    check(&[Between(0.0, 1.0)], 0.0, 0, 1.0f64.to_bits());
}

#[test]
fn bad_amounts() {
    let [nan, quiet] = [INFINITY | 1, u64::MAX].map(f64::from_bits);
    let not_finite = [f64::NAN, nan, quiet, f64::INFINITY, f64::NEG_INFINITY];
    for x in not_finite {
        check_bad(&[Known(x)], 1.0);
        check_bad(&[Between(x, 1.0)], 1.0);
        check_bad(&[Between(1.0, x)], 1.0);
        check_bad(&[Between(x, x)], 1.0);
        check_bad(&[Known(1.0), Missing, Known(x), Known(2.0)], 1.0);
        // a ceiling, though nothing is missing, or there is nothing at all
        check_bad(&[Known(1.0)], x);
        check_bad(&[Missing], x);
        check_bad(&[], x);
    }
    for ceiling in [-1.0, -LEAST, -MAX] {
        check_bad(&[Known(1.0)], ceiling);
        check_bad(&[Missing], ceiling);
        check_bad(&[], ceiling);
    }
    let next = f64::from_bits(1.0f64.to_bits() + 1);
    for (low, high) in [
        (2.0, 1.0),
        (next, 1.0),
        (-1.0, -next),
        (1.0, -1.0),
        (LEAST, 0.0),
        (LEAST, -0.0),
        (0.0, -LEAST),
        (-0.0, -LEAST),
        (MAX, -MAX),
    ] {
        check_bad(&[Between(low, high)], 1.0);
        check_bad(&[Missing, Known(1.0), Between(low, high)], 1.0);
        // and the other way round it is a range
        let [lower, upper] = [high, low].map(|x| if x == 0.0 { 0 } else { x.to_bits() });
        check(&[Between(high, low)], 1.0, lower, upper);
    }
}

/// Only through `raw` can a tag be above 2.
#[test]
fn bad_tags() {
    let one = 1.0f64.to_bits();
    for tag in [3, 4, 255, 256, 257, 1 << 32, MINUS, MINUS | 1, u64::MAX] {
        check_untouched(&[tag], &[one], &[one], one, 2, 11);
        check_untouched(&[0, 2, tag, 1], &[one; 4], &[one; 4], one, 3, 11);
    }
}

/// Every choice of conditions: the first in the order 2, 5, 11 is told, and nothing is written.
#[test]
fn refusals_in_their_order() {
    let one = 1.0f64.to_bits();
    for holding in 0..8 {
        let holds = |condition: u32| holding >> condition & 1 == 1;
        let room = if holds(0) { 1 } else { 2 };
        let tags = [0, if holds(2) { 3 } else { 2 }, 0];
        let wanted = [2, 5, 11].into_iter().enumerate();
        let wanted = { wanted }.find(|&(condition, _)| holds(condition as u32));
        let Some((_, code)) = wanted else { continue };
        // one list is longer, or one is shorter
        let lengths: &[[usize; 3]] = if holds(1) {
            &[[1, 0, 0], [0, 1, 0], [0, 0, 1], [1, 1, 0], [0, 1, 1]]
        } else {
            &[[0; 3]]
        };
        for less in lengths {
            check_untouched(
                &tags[..3 - less[0]],
                &[one; 3][..3 - less[1]],
                &[one; 3][..3 - less[2]],
                one,
                room,
                code,
            );
        }
    }
    // no room at all, and no lists
    check_untouched(&[], &[], &[], one, 0, 2);
    check_untouched(&[], &[], &[one], one, 2, 5);
    // a ceiling comes after the lengths
    check_untouched(&[0], &[], &[one], INFINITY, 2, 5);
}

/// One entry more than there may be: 6 comes after 2 and 5, and before 11. Zeros that nobody wrote
/// take no memory.
#[test]
fn too_many_entries() {
    let one = 1.0f64.to_bits();
    let list = || vec![0; LIMIT + 2];
    let (mut tags, mut first, mut second) = (list(), list(), list());
    for (bad, ceiling) in [(0, one), (3, one), (0, INFINITY), (3, INFINITY)] {
        tags[5] = bad;
        for (room, less, code) in [
            (1, [0, 0, 0], 2),
            (1, [1, 0, 0], 2),
            (2, [1, 0, 0], 5),
            (2, [0, 1, 0], 5),
            (2, [0, 0, 1], 5),
            (2, [0, 0, 0], 6),
            (2, [1, 1, 1], 6),
        ] {
            for end in [0, LIMIT + 1] {
                (first[end], second[end]) = (GUARD, GUARD);
            }
            let mut pair = vec![GUARD; room];
            let (a, b) = (&mut first[less[1]..], &mut second[less[2]..]);
            let given = raw::range(&tags[less[0]..], a, b, ceiling, &mut pair);
            assert_eq!(given, code);
            for list in [&first, &second] {
                assert_eq!((list[0], list[1]), (GUARD, 0));
                assert_eq!((list[LIMIT], list[LIMIT + 1]), (0, GUARD));
            }
            assert_eq!(pair, vec![GUARD; room]);
        }
    }
}

#[test]
fn a_million_amounts_and_one_more() {
    let mut amounts = vec![Between(0.5, 1.0); 1_048_577];
    assert_eq!(range(&amounts, 0.0), Ok((524_288.5, 1_048_577.0)));
    assert_eq!(range(&amounts[1..], 0.0), Ok((524_288.0, 1_048_576.0)));
    assert_eq!(range(&amounts, f64::NAN), Err(Refusal::BadAmount));
    amounts[1_048_576] = Missing;
    assert_eq!(range(&amounts, 0.75), Ok((524_288.0, 1_048_576.75)));
    amounts[1_048_576] = Between(1.0, 0.5);
    assert_eq!(range(&amounts, 0.0), Err(Refusal::BadAmount));
    assert_eq!(
        range(&amounts[..1_048_576], 0.0),
        Ok((524_288.0, 1_048_576.0))
    );
}

/// A whole number counts 2^−UNIT.
const UNIT: i64 = 40;

/// The greatest double that is not above the number: the one of its 53 leading digits, a lower
/// number where it is negative.
fn not_above(n: i128) -> f64 {
    let digits = 128 - n.unsigned_abs().leading_zeros();
    let beyond = digits.saturating_sub(53);
    // a shift goes toward negative
    let leading = (n >> beyond) as f64;
    leading * power(i64::from(beyond) - UNIT)
}

/// The least double that is not below it.
fn not_below(n: i128) -> f64 {
    // +0 of 0, and not −0
    0.0 - not_above(-n)
}

/// Whole numbers of up to 113 digits: the sums of the lows and of the highs are known, and so are
/// their neighbours.
#[test]
fn neighbours_of_exact_sums() {
    // 2^53 + 1 is no double; its neighbours are 2^53 and 2^53 + 2
    let [n, before, after] = [(1i128 << 53) + 1, 1 << 53, (1 << 53) + 2];
    let double = |n: i128| n as f64 * power(-UNIT);
    assert_eq!([not_above(n), not_below(n)], [before, after].map(double));
    assert_eq!(
        [not_above(-n), not_below(-n)],
        [-after, -before].map(double)
    );
    assert_eq!([not_above(before), not_below(before)], [double(before); 2]);
    let mut draw = Draw(6);
    // up to 53 digits, and up to 60 zeros behind them
    let figure = |draw: &mut Draw| -> (i128, f64) {
        let digits = (draw.next() >> (11 + draw.below(53))) as i128;
        let n = digits << draw.below(61);
        let n = if draw.below(2) == 0 { n } else { -n };
        (n, not_above(n))
    };
    let (mut inexact, mut zeros) = (0, 0);
    for round in 0..4000 {
        let (most, ceiling) = figure(&mut draw);
        let (most, ceiling) = (most.abs(), ceiling.abs());
        let (mut low_sum, mut high_sum) = (0, 0);
        let mut amounts = Vec::new();
        for _ in 0..draw.below(12) {
            let (mut low, mut high) = (figure(&mut draw), figure(&mut draw));
            if low.0 > high.0 {
                (low, high) = (high, low);
            }
            let (amount, low, high) = match draw.below(3) {
                0 => (Known(low.1), low.0, low.0),
                1 => (Between(low.1, high.1), low.0, high.0),
                _ => (Missing, 0, most),
            };
            amounts.push(amount);
            low_sum += low;
            high_sum += high;
            // half of the time what is known is taken away again
            if let (Known(x), 0) = (amount, draw.below(2)) {
                amounts.push(Known(-x));
                low_sum -= low;
                high_sum -= high;
            }
        }
        let (lower, upper) = (not_above(low_sum), not_below(high_sum));
        inexact += u32::from(not_above(high_sum) != upper);
        zeros += u32::from(lower == 0.0);
        check(&amounts, ceiling, lower.to_bits(), upper.to_bits());
        amounts.reverse();
        let turn = round % amounts.len().max(1);
        amounts.rotate_left(turn);
        assert_eq!(range(&amounts, ceiling), Ok((lower, upper)), "{amounts:?}");
    }
    assert!(inexact > 1000 && zeros > 300, "{inexact}, {zeros}");
}

/// Finite numbers of every size: the pair is the plain sum of the lows toward negative and that of
/// the highs toward positive, with −0 as +0.
#[test]
fn the_plain_sums() {
    let totals =
        |rounding| Totals::<f64>::new().with_settings(Settings::new().with_rounding(rounding));
    let (down, up) = (
        totals(Rounding::TowardNegative),
        totals(Rounding::TowardPositive),
    );
    let mut draw = Draw(66);
    let figure = |draw: &mut Draw| loop {
        let x = f64::from_bits(draw.next());
        if x.is_finite() {
            return x;
        }
    };
    for _ in 0..2000 {
        let ceiling = figure(&mut draw).abs();
        let amounts: Vec<Amount> = (0..draw.below(8))
            .map(|_| {
                let (x, y) = (figure(&mut draw), figure(&mut draw));
                match draw.below(3) {
                    0 => Known(x),
                    1 => Between(x.min(y), x.max(y)),
                    _ => Missing,
                }
            })
            .collect();
        let (lows, highs) = lows_and_highs(&amounts, ceiling);
        let total = |totals: Totals<f64>, list: Vec<u64>| {
            let list: Vec<f64> = list.into_iter().map(f64::from_bits).collect();
            let total = totals.sum(&list).unwrap().result;
            if total == 0.0 {
                0
            } else {
                total.to_bits()
            }
        };
        check(&amounts, ceiling, total(down, lows), total(up, highs));
    }
}

/// Each of the 120 orders of five amounts, whose sums lie beside 1 and −1.
#[test]
fn one_pair_in_every_order() {
    let amounts = [
        Known(1e300),
        Between(-1.0, 1.0),
        Missing,
        Known(-1e300),
        Known(-LEAST),
    ];
    let below_minus_one = (-1.0f64).to_bits() + 1;
    let mut orders = 0;
    for order in 0..5usize.pow(5) {
        let places = [0, 1, 2, 3, 4].map(|i| order / 5usize.pow(i) % 5);
        if (0..5).any(|i| !places.contains(&i)) {
            continue;
        }
        orders += 1;
        // 1 + 2^−1074 − 2^−1074
        check(
            &places.map(|i| amounts[i]),
            LEAST,
            below_minus_one,
            1.0f64.to_bits(),
        );
    }
    assert_eq!(orders, 120);
}
