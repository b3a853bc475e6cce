//! The contribution that reaches a target, through `raw`, `Totals` and the free function. The
//! expectations are rows that were worked out by hand; in small formats a search through all of
//! their numbers, in whole numbers; in wider ones the exact sum with the number found and with the
//! one before it, or where there is none on either side of the wanted total.

mod common;
mod draw;
// some of it is asked by the tests of `into` alone
#[allow(dead_code)]
mod exact;
mod numbers;

use std::collections::HashMap;

use common::ROUNDINGS;
use draw::Draw;
use exact::Exact;
use fermuzhai::{
    contribution, raw, sum, Format, Kind, NanPropagation, Refusal, Rounding, Settings, Target,
    Tininess, Totals,
};
use numbers::number;

const FARTHEST: i64 = Format::FARTHEST_BIAS;
const LIMIT: usize = 1 << 28;
const UNTOUCHED: u8 = 0xa5;
const PLAIN: Settings = Settings::new();

fn with(rounding: Rounding) -> Settings {
    PLAIN.with_rounding(rounding)
}

/// The number found or a refusal's code. Eight bytes are written, whatever was in them, and none
/// beyond; or nothing at all.
fn entered(f: Format, c: Settings, list: &[u64], wanted: u64) -> Result<u64, u64> {
    let mut answer = [UNTOUCHED; 16];
    let code = raw::contribution(f.into(), f.named_bias, c.into(), wanted, list, &mut answer);
    let (number, beyond) = answer.split_at(8);
    assert_eq!(*beyond, [UNTOUCHED; 8]);
    if code == 0 {
        return Ok(u64::from_le_bytes(number.try_into().unwrap()));
    }
    assert_eq!(*number, [UNTOUCHED; 8]);
    Err(code)
}

/// Every way to the number of encodings.
fn check(f: Format, c: Settings, list: &[u64], wanted: u64, expected: Result<u64, u64>) {
    let what = || format!("{f:?} {c:?} {list:x?} to {wanted:x}");
    assert_eq!(entered(f, c, list, wanted), expected, "{}", what());
    let given = Totals::of(f).with_settings(c).contribution(list, wanted);
    let refused = |code| Refusal::from_code(code).unwrap();
    assert_eq!(given, expected.map_err(refused), "{}", what());
}

// ---- rows

/// Settings, a list, the wanted total, and a number or the code of a refusal.
type Row = (Settings, &'static [u64], u64, Result<u64, u64>);

#[test]
fn rows_of_binary16() {
    let down = with(Rounding::TowardNegative);
    let up = with(Rounding::TowardPositive);
    let saturate = PLAIN.with_saturate(true);
    #[rustfmt::skip]
    let rows: [Row; 22] = [
        (PLAIN, &[], 0x8000, Ok(0)),
        (PLAIN, &[], 0x0000, Ok(0)),
        // 1 and −2^−12 are a tie that goes to 1
        (PLAIN, &[0x3c00], 0x3c00, Ok(0x8c00)),
        (down, &[0x3c00], 0x3c00, Ok(0)),
        // the least number is enough to go up from 1
        (up, &[0x3c00], 0x3c01, Ok(1)),
        (up, &[0x3c00], 0x3c00, Ok(0x8fff)),
        // 65504 and −16 are a tie, and 65504 is odd: −15.99 is the least, and of −65504 too
        (PLAIN, &[0x7bff], 0x7bff, Ok(0xcbff)),
        (PLAIN, &[0x7bff, 0x7bff], 0x7bff, Ok(0xfbff)),
        (PLAIN, &[0x7bff, 0x7bff], 0x7bfe, Err(14)),
        (PLAIN, &[0x7bff, 0x7bff, 0x7bff], 0x7bff, Err(14)),
        (saturate, &[0x7bff, 0x7bff, 0x7bff], 0x7bff, Ok(0xfbff)),
        (saturate, &[0x7bff, 0x7bff, 0x7bff], 0x7bfe, Err(14)),
        // with saturate everything from −65504 on and below reaches −65504
        (saturate, &[0xfbff], 0xfbff, Ok(0xfbff)),
        (PLAIN, &[0xfbff], 0xfbff, Ok(0xcbff)),
        // a zero by an amount that goes back, and without one
        (PLAIN, &[1], 0x8000, Ok(0x8001)),
        (PLAIN, &[1], 0x0000, Ok(0x8001)),
        (down, &[0x8000], 0x0000, Ok(0)),
        (PLAIN, &[0x0000, 0x8000, 0x8000], 0x8000, Ok(0)),
        // to few digits: no sum is a wanted total of more, and below 2^−14 the grid is coarser
        (PLAIN.with_precision(3), &[0x3c00], 0x3c01, Err(14)),
        (PLAIN.with_precision(1), &[], 0x0000, Ok(0x8200)),
        (PLAIN.with_precision(1), &[], 0x8000, Ok(0x8200)),
        (PLAIN.with_precision(1), &[], 0x0001, Err(14)),
    ];
    for (c, list, wanted, expected) in rows {
        check(Format::BINARY16, c, list, wanted, expected);
    }
}

#[test]
fn rows_of_other_formats() {
    let tiny = Format::new(Kind::Ieee, 2, 4);
    // 3, the largest number, beside 0 to 3 by halves
    let answers = [Ok(0xd), Err(14), Ok(0xc), Ok(0xb), Ok(0xa), Ok(0)];
    for format in [tiny, tiny.with_bias(-3), tiny.with_bias(FARTHEST)] {
        for (wanted, expected) in (0..).zip(answers) {
            check(format, PLAIN, &[5], wanted, expected);
        }
    }
    let one = 1f64.to_bits();
    let least = (1 << 63) | (969 << 52); // −2^−54
    check(Format::BINARY64, PLAIN, &[one], one, Ok(least));
    // any bit below makes a sum odd, and 1 is even
    let odd = with(Rounding::ToOdd);
    check(Format::BINARY64, odd, &[963 << 52], one, Err(14));
    check(Format::BINARY64, odd, &[963 << 52], one + 1, Ok(one));
    // wide apart: what is left of 2^1000 is 2^−1000, or 2^947 and more
    let apart = [2023 << 52, 23 << 52];
    check(Format::BINARY64, PLAIN, &apart, one, Err(14));
    let back = (1 << 63) | (2023 << 52);
    check(Format::BINARY64, PLAIN, &apart, 23 << 52, Ok(back));
    // 28 bits of exponent: 1, less half of what is below it
    let far = Format::new(Kind::Ieee, 28, 64);
    let one = ((1 << 27) - 1) << 35;
    let less = (1 << 63) | (((1 << 27) - 1 - 37) << 35);
    check(far, PLAIN, &[one], one, Ok(less));
}

#[test]
fn floats() {
    let half_of_half = -f64::EPSILON / 4.0;
    assert_eq!(contribution(&[1.0], 1.0), Ok(half_of_half));
    assert_eq!(contribution(&[1f32], 1.0), Ok(-f32::EPSILON / 4.0));
    let zero = contribution::<f64>(&[], -0.0).unwrap();
    assert_eq!(zero.to_bits(), 0);
    let zero = contribution(&[-0f32], 0.0).unwrap();
    assert_eq!(zero.to_bits(), 0);
    assert_eq!(contribution(&[1e300, -1e300, 5e-324], 0.0), Ok(-5e-324));
    // toward negative the sum must not lie below
    let down = Totals::<f32>::new().with_settings(with(Rounding::TowardNegative));
    assert_eq!(down.contribution(&[1.0, -1.0, 0.5], 0.75), Ok(0.25));
    let none = Err(Refusal::NoContribution);
    assert_eq!(contribution(&[f32::MAX, f32::MAX], 0.0), none);
    assert_eq!(
        contribution(&[f64::MAX, f64::MAX], 1.0),
        Err(Refusal::NoContribution)
    );
    for special in [f64::NAN, f64::INFINITY, f64::NEG_INFINITY] {
        assert_eq!(contribution(&[1.0, special], 1.0), Err(Refusal::NotFinite));
        assert_eq!(contribution(&[1.0], special), Err(Refusal::NotFinite));
        let (list, wanted) = ([1.0, special as f32], special as f32);
        assert_eq!(contribution(&list, 1.0), Err(Refusal::NotFinite));
        assert_eq!(contribution(&list[..1], wanted), Err(Refusal::NotFinite));
    }
}

/// What the examples print.
#[test]
fn what_must_be_paid_in_month_480() {
    let encodings = include_str!("data/career.txt").lines().take(479);
    let months: Vec<f64> = encodings
        .map(|line| f64::from_bits(u64::from_str_radix(line, 16).unwrap()))
        .collect();
    let due = contribution(&months, 60_000.0).unwrap();
    let before = f64::from_bits(due.to_bits() - 1);
    let line = |(what, x): (&str, f64)| format!("{what} {:016x} {x:.2}", x.to_bits());
    let paid = sum(&months).unwrap().result;
    let amounts = [("paid", paid), ("wanted", 60_000.0), ("contribution", due)];
    let mut printed: String = amounts.map(|amount| line(amount) + "\n").concat();
    for (what, last, said) in [
        ("with it", due, "reached"),
        ("with the number before", before, "missed"),
        ("with a penny less", due - 0.01, "missed"),
    ] {
        let total = sum(&[&months[..], &[last]].concat()).unwrap().result;
        printed += &format!("{} {said}\n", line((what, total)));
    }
    assert_eq!(printed, include_str!("data/contribution.expected"));
}

// ---- small formats, by a search through all of their numbers

/// A format of kind 0, with its numbers in units of the least.
struct Small {
    format: Format,
    /// Of every number the units and the encoding, the least first; zero is +0 alone.
    numbers: Vec<(i64, u64)>,
}

impl Small {
    fn new(exponent_bits: u8, width: u8) -> Self {
        let mut small = Self {
            format: Format::new(Kind::Ieee, exponent_bits, width),
            numbers: Vec::new(),
        };
        for encoding in 0..1 << width {
            if let Some(units) = small
                .units(encoding)
                .filter(|_| encoding != 1 << (width - 1))
            {
                small.numbers.push((units, encoding));
            }
        }
        small.numbers.sort();
        small
    }

    fn digits(&self) -> u32 {
        self.format.digits().into()
    }

    /// `None` of a NaN or an infinity.
    fn units(&self, encoding: u64) -> Option<i64> {
        let fraction_bits = self.digits() - 1;
        let sign = 1 << (self.format.width - 1);
        let field = (encoding & (sign - 1)) >> fraction_bits;
        let fraction = (encoding & ((1 << fraction_bits) - 1)) as i64;
        if field == (1 << self.format.exponent_bits) - 1 {
            return None;
        }
        let magnitude = match field {
            0 => fraction,
            _ => (fraction + (1 << fraction_bits)) << (field - 1),
        };
        Some(if encoding & sign == 0 {
            magnitude
        } else {
            -magnitude
        })
    }

    /// A sum, rounded; `None` where that is an infinity.
    fn rounded(&self, c: Settings, sum: i64) -> Option<i64> {
        let digits = self.digits();
        let kept_digits = c.precision.map_or(digits, |q| q.get().into());
        let magnitude = sum.unsigned_abs();
        let length = 64 - magnitude.leading_zeros();
        // the least normal number has `digits` of them: below it there is one grid
        let place = length.max(digits) - kept_digits;
        let (kept, rest) = (magnitude >> place, magnitude & ((1 << place) - 1));
        let (twice, whole) = (2 * rest, 1 << place);
        let is_inexact = rest != 0;
        let is_up = match c.rounding {
            Rounding::TiesToEven => twice > whole || (twice == whole && kept % 2 == 1),
            Rounding::TiesToAway => twice >= whole,
            Rounding::TiesTowardZero => twice > whole,
            Rounding::TowardPositive => is_inexact && sum > 0,
            Rounding::TowardNegative => is_inexact && sum < 0,
            Rounding::TowardZero => false,
            Rounding::AwayFromZero => is_inexact,
            _ => is_inexact && kept % 2 == 0,
        };
        let mut result = ((kept + u64::from(is_up)) << place) as i64;
        // the power of two behind the largest number
        let end = digits + (1 << self.format.exponent_bits) - 3;
        if result >= 1 << end {
            let is_infinite = match c.rounding {
                Rounding::TowardPositive => sum > 0,
                Rounding::TowardNegative => sum < 0,
                Rounding::TowardZero | Rounding::ToOdd => false,
                _ => true,
            };
            if is_infinite && !c.saturate {
                return None;
            }
            result = ((1 << kept_digits) - 1) << (end - kept_digits);
        }
        Some(result * sum.signum())
    }

    /// For each encoding as the wanted total what the list gives. Zeros are one number here.
    fn answers(&self, c: Settings, list: &[u64]) -> Vec<Result<u64, u64>> {
        let sum: Option<i64> = list.iter().map(|&b| self.units(b)).sum();
        let mut least = HashMap::new();
        for &(units, encoding) in &self.numbers {
            if let Some(result) = sum.and_then(|sum| self.rounded(c, sum + units)) {
                least.entry(result).or_insert(encoding);
            }
        }
        let answer = |wanted| match (sum, self.units(wanted)) {
            (Some(_), Some(units)) => least.get(&units).copied().ok_or(14),
            _ => Err(15),
        };
        (0..1 << self.format.width).map(answer).collect()
    }

    /// Compares every wanted total. The encodings do not depend on the bias. Returns how many there
    /// were with a number, and without.
    fn compare(&self, bias: Option<i64>, c: Settings, list: &[u64]) -> [u64; 2] {
        let mut format = self.format;
        format.named_bias = bias;
        let mut counts = [0, 0];
        for (wanted, expected) in (0..).zip(self.answers(c, list)) {
            let given = entered(format, c, list, wanted);
            assert_eq!(given, expected, "{format:?} {c:?} {list:x?} to {wanted:x}");
            counts[0] += u64::from(expected.is_ok());
            counts[1] += u64::from(expected == Err(14));
        }
        counts
    }

    /// Every mode, precision and saturate.
    fn settings(&self) -> Vec<Settings> {
        let mut all = Vec::new();
        for rounding in ROUNDINGS {
            for precision in 0..=self.format.digits() {
                for saturate in [false, true] {
                    let c = with(rounding).with_precision(precision);
                    all.push(c.with_saturate(saturate));
                }
            }
        }
        all
    }

    /// Pairs of encodings, half of them the other way round.
    fn pairs(&self) -> impl Iterator<Item = [u64; 2]> {
        let end = 1 << self.format.width;
        let pairs = (0..end).flat_map(move |a| (a..end).map(move |b| [a, b]));
        pairs.map(|[a, b]| if (a + b) % 2 == 0 { [a, b] } else { [b, a] })
    }
}

fn small() -> [Small; 3] {
    [2, 3, 4].map(|exponent_bits| Small::new(exponent_bits, 6))
}

fn add(all: &mut [u64; 2], more: [u64; 2]) {
    all[0] += more[0];
    all[1] += more[1];
}

/// The numbers in units, and some that are rounded, by hand: five bits of which three are of
/// exponent, two digits.
#[test]
fn units_and_their_rounding() {
    let small = Small::new(3, 5);
    let units: Vec<_> = small.numbers.iter().map(|&(units, _)| units).collect();
    let above = [0, 1, 2, 3, 4, 6, 8, 12, 16, 24, 32, 48, 64, 96];
    assert_eq!(units[13..], above);
    assert_eq!(units[0], -96);
    let rounded = |rounding, sum| small.rounded(with(rounding), sum);
    assert_eq!(rounded(Rounding::TiesToEven, 5), Some(4));
    assert_eq!(rounded(Rounding::TiesToEven, 7), Some(8));
    assert_eq!(rounded(Rounding::TiesToAway, 5), Some(6));
    assert_eq!(rounded(Rounding::ToOdd, -7), Some(-6));
    assert_eq!(rounded(Rounding::TiesToEven, 111), Some(96));
    assert_eq!(rounded(Rounding::TiesToEven, 112), None);
    assert_eq!(rounded(Rounding::TiesTowardZero, 112), Some(96));
    assert_eq!(rounded(Rounding::TowardZero, 1000), Some(96));
    assert_eq!(rounded(Rounding::TowardNegative, -97), None);
    let one = with(Rounding::TowardZero).with_precision(1);
    assert_eq!(small.rounded(one, 3), Some(2));
    assert_eq!(small.rounded(one, 1), Some(0));
    assert_eq!(small.rounded(one, -1000), Some(-64));
}

/// Every mode, precision and saturate; every wanted total.
#[test]
fn lists_of_up_to_one_small_value() {
    for small in small() {
        let mut counts = [0, 0];
        for c in small.settings() {
            add(&mut counts, small.compare(None, c, &[]));
            for value in 0..1 << small.format.width {
                add(&mut counts, small.compare(None, c, &[value]));
            }
        }
        let [found, none] = counts;
        assert!(
            found > 50_000 && none > 50_000,
            "{:?}: {found}, {none}",
            small.format
        );
    }
}

/// Every list of two, by default in every mode; every wanted total. In the first mode in both
/// orders.
#[test]
fn lists_of_two_small_values_in_every_mode() {
    let small = Small::new(3, 6);
    for rounding in ROUNDINGS {
        let mut counts = [0, 0];
        for pair in small.pairs() {
            add(&mut counts, small.compare(None, with(rounding), &pair));
            if rounding == Rounding::TiesToEven {
                small.compare(None, with(rounding), &[pair[1], pair[0]]);
            }
        }
        let [found, none] = counts;
        assert!(
            found > 25_000 && none > 25_000,
            "{rounding:?}: {found}, {none}"
        );
    }
}

/// Every list of two numbers under a fifth of all modes, precisions and saturates, by turns, with a
/// bias that is named or is not; every wanted total.
fn lists_of_two_numbers(small: &Small) {
    let is_finite = |encoding: &u64| small.units(*encoding).is_some();
    let lists: Vec<[u64; 2]> = small
        .pairs()
        .filter(|pair| pair.iter().all(is_finite))
        .collect();
    let biases = [None, Some(-3), Some(FARTHEST), Some(-FARTHEST)];
    let mut counts = [0, 0];
    for (i, c) in small.settings().into_iter().enumerate() {
        // not in step with the precisions
        let turn = i + i / 16;
        for list in lists.iter().skip(turn % 5).step_by(5) {
            add(&mut counts, small.compare(biases[turn % 4], c, list));
        }
    }
    let [found, none] = counts;
    assert!(found > 250_000 && none > 250_000, "{found}, {none}");
}

#[test]
fn lists_of_two_numbers_of_four_digits() {
    lists_of_two_numbers(&Small::new(2, 6));
}

#[test]
fn lists_of_two_numbers_of_three_digits() {
    lists_of_two_numbers(&Small::new(3, 6));
}

#[test]
fn lists_of_two_numbers_of_two_digits() {
    lists_of_two_numbers(&Small::new(4, 6));
}

// ---- wider formats, beside the exact sum

/// So many places above zero in the order of numbers, or below it; of both zeros 0.
fn rank(f: Format, encoding: u64) -> i64 {
    let sign = 1 << (f.width - 1);
    let magnitude = (encoding & (sign - 1)) as i64;
    if encoding & sign == 0 {
        magnitude
    } else {
        -magnitude
    }
}

/// The number so many places from zero, +0 of the zeros.
fn at(f: Format, rank: i64) -> u64 {
    let sign = u64::from(rank < 0) << (f.width - 1);
    sign | rank.unsigned_abs()
}

/// The rank of the largest number.
fn last(f: Format) -> i64 {
    let infinity = ((1u64 << f.exponent_bits) - 1) << (f.digits() - 1);
    infinity as i64 - 1
}

/// A list in a format under some settings.
struct Case {
    f: Format,
    c: Settings,
    list: Vec<u64>,
}

impl Case {
    /// The rank of the exact sum with a number behind the list, rounded once; that of an infinity
    /// lies behind the last.
    fn with(&self, rank_of_number: i64) -> i64 {
        let mut list = self.list.clone();
        list.push(at(self.f, rank_of_number));
        let exact = Exact::of(self.f, false, &list).unwrap();
        let (result, ..) = exact.in_target(Target::new(self.f).with_settings(self.c));
        rank(self.f, result)
    }

    /// The least rank with which the sum is not below a wanted one; behind the last where it always
    /// is.
    fn least_not_below(&self, wanted: i64) -> i64 {
        let (mut low, mut high) = (-last(self.f), last(self.f) + 1);
        while low < high {
            let middle = ((i128::from(low) + i128::from(high)) >> 1) as i64;
            if self.with(middle) < wanted {
                low = middle + 1;
            } else {
                high = middle;
            }
        }
        low
    }

    /// Whether there is a number: then the sum is the wanted total with it and below with the one
    /// before it, and else above and below.
    fn is_right(&self, wanted: u64) -> bool {
        let what = || format!("{:?} {:?} {:x?} to {wanted:x}", self.f, self.c, self.list);
        let (first, last, goal) = (-last(self.f), last(self.f), rank(self.f, wanted));
        match entered(self.f, self.c, &self.list, wanted) {
            Ok(number) => {
                let found = rank(self.f, number);
                assert_eq!(at(self.f, found), number, "−0, or a stray bit: {}", what());
                assert!(found >= first && found <= last, "{}", what());
                assert_eq!(self.with(found), goal, "{}", what());
                assert!(found == first || self.with(found - 1) < goal, "{}", what());
                true
            }
            Err(code) => {
                assert_eq!(code, 14, "{}", what());
                let past = self.least_not_below(goal);
                assert!(past > last || self.with(past) > goal, "{}", what());
                assert!(past == first || self.with(past - 1) < goal, "{}", what());
                false
            }
        }
    }
}

fn drawn_settings(draw: &mut Draw, f: Format, rounding: Rounding) -> Settings {
    let precision = match draw.below(3) {
        0 => 1 + draw.below(f.digits().into()),
        1 => u64::from(f.digits()) - draw.below(3),
        _ => 0,
    };
    let c = with(rounding)
        .with_precision(precision as u8)
        .with_saturate(draw.below(3) == 0)
        .with_default_nan_negative(draw.below(2) == 0);
    // none of these has an effect
    let c = match draw.below(2) {
        0 => c,
        _ => c.with_tininess(Tininess::AfterRounding),
    };
    match draw.below(2) {
        0 => c,
        _ => c.with_nan_propagation(NanPropagation::DefaultNan),
    }
}

/// Finite values: near one exponent, or of any; some of them subnormal, some of the largest, some
/// zeros, some negatives of others.
fn drawn_list(draw: &mut Draw, f: Format, count: u64) -> Vec<u64> {
    let fields = (1 << f.exponent_bits) - 1;
    let near = match draw.below(4) {
        0 => draw.below(4),
        1 => fields - 1 - draw.below(3),
        _ => draw.below(fields),
    };
    let spread = [1, 4, 30, fields][draw.below(4) as usize];
    let mut list = vec![];
    for _ in 0..count {
        let field = (near + draw.below(spread)).min(fields - 1);
        let fraction = [0, 1, draw.next(), draw.next()][draw.below(4) as usize];
        let fraction = fraction & ((1 << (f.digits() - 1)) - 1);
        let magnitude = field << (f.digits() - 1) | fraction;
        let sign = draw.below(2) << (f.width - 1);
        let value = match (draw.below(8), list.last()) {
            (0, Some(&last)) => last ^ 1 << (f.width - 1),
            (1, _) => sign,
            _ => sign | magnitude,
        };
        assert!(number(f, value).is_some(), "a NaN or an infinity");
        list.push(value);
    }
    list
}

/// A total that some number reaches, or the one beside it; the total itself; zeros, the largest and
/// the least numbers; or any.
fn drawn_total(draw: &mut Draw, case: &Case) -> u64 {
    let (f, last) = (case.f, last(case.f));
    let with = |draw: &mut Draw| case.with(rank(f, drawn_list(draw, f, 1)[0]));
    let rank = match draw.below(8) {
        0 => return draw.below(2) << (f.width - 1),
        1 => last - draw.below(3) as i64,
        2 => draw.below(3) as i64 - last,
        3 => draw.below(7) as i64 - 3,
        4 => case.with(0),
        5 => with(draw) + draw.below(3) as i64 - 1,
        6 => rank(f, drawn_list(draw, f, 1)[0]),
        _ => with(draw),
    };
    at(f, rank.clamp(-last, last))
}

/// Of a format, drawn lists and totals in every mode: both answers must have come often enough.
fn drawn_cases(seed: u64, f: Format, rounds: u64) {
    let mut draw = Draw(seed);
    for rounding in ROUNDINGS {
        let mut counts = [0, 0];
        for _ in 0..rounds {
            let count = [0, 1, 2, 3, 8, 20][draw.below(6) as usize];
            let case = Case {
                f,
                c: drawn_settings(&mut draw, f, rounding),
                list: drawn_list(&mut draw, f, count),
            };
            let wanted = drawn_total(&mut draw, &case);
            counts[usize::from(case.is_right(wanted))] += 1;
        }
        let [none, found] = counts;
        assert!(
            none > rounds / 10 && found > rounds / 4,
            "{f:?} {rounding:?}: {counts:?}"
        );
    }
}

#[test]
fn drawn_lists_of_doubles() {
    drawn_cases(12, Format::BINARY64, 200);
}

#[test]
fn drawn_lists_of_other_formats() {
    let binary32 = Format::BINARY32;
    for (seed, f) in (1..).zip([
        binary32,
        binary32.with_bias(-40),
        Format::BINARY16,
        Format::BINARY16.with_bias(FARTHEST),
        Format::BFLOAT16,
        Format::TF32,
        Format::E5M2.with_bias(-FARTHEST),
        Format::new(Kind::Ieee, 2, 64),
    ]) {
        drawn_cases(seed, f, 60);
    }
}

/// 480 months and a total to the pound, in every mode: the number, and what a list in another order
/// has.
#[test]
fn a_career_in_every_mode() {
    let f = Format::BINARY64;
    let mut draw = Draw(480);
    let amount = |draw: &mut Draw| ((draw.below(90_000) as f64 - 9_000.0) / 100.0).to_bits();
    let list: Vec<u64> = (0..480).map(|_| amount(&mut draw)).collect();
    for rounding in ROUNDINGS {
        let mut case = Case {
            f,
            c: with(rounding),
            list: list.clone(),
        };
        for pounds in [300_000f64, 20_000.0, -1.0, 0.0, 1e300] {
            let wanted = pounds.to_bits();
            let is_found = case.is_right(wanted);
            // the amount that is missing is the smaller, so it has digits enough; to odd a sum that
            // is not exact is never 300,000, which is even
            let is_even = rounding == Rounding::ToOdd;
            assert!(pounds != 300_000.0 || is_found != is_even, "{rounding:?}");
            let number = entered(f, case.c, &case.list, wanted);
            case.list.rotate_left(57);
            case.list.swap(0, 100);
            check(f, case.c, &case.list, wanted, number);
        }
    }
}

// ---- refusals

const BINARY16: raw::Format = [0, 5, 16];

/// To three digits 1 is reached by what is added to 3, and the next number is not.
const THREE_DIGITS: raw::Settings = [0, 0, 0, 0, 0, 0, 0, 3];

const BAD_FORMATS: [(raw::Format, Option<i64>); 10] = [
    ([1, 5, 16], None),
    ([2, 5, 16], Some(16)),
    ([3, 5, 16], None),
    ([4, 5, 16], None),
    ([4, 15, 80], None),
    ([5, 5, 16], None),
    ([0, 1, 16], None),
    ([0, 29, 64], None),
    ([0, 5, 6], Some(15)),
    (BINARY16, Some(FARTHEST + 1)),
];

const BAD_SETTINGS: [raw::Settings; 10] = [
    [8, 0, 0, 0, 0, 0, 0, 3],
    [0, 2, 0, 0, 0, 0, 0, 3],
    [0, 0, 4, 0, 0, 0, 0, 3],
    [0, 0, 0, 2, 0, 0, 0, 3],
    [0, 0, 0, 0, 1, 0, 0, 3],
    [0, 0, 0, 0, 2, 0, 0, 3],
    [0, 0, 0, 0, 0, 1, 0, 3],
    [0, 0, 0, 0, 0, u64::MAX, 0, 3],
    [0, 0, 0, 0, 0, 0, 2, 3],
    [0, 0, 0, 0, 0, 0, 0, 12],
];

/// Three values and the wanted total behind them, and what is wrong with these four: none, or the
/// code of the first of 7, 15 and 14 that holds.
fn faulty_values(draw: &mut Draw, [is_stray, is_special, is_none]: [bool; 3]) -> ([u64; 4], u64) {
    let mut all = [0x3c00, 0x3c00, 0x3c00, 0x3c00];
    let mut code = 0;
    if is_none {
        all[3] = 0x3c01;
        code = 14;
    }
    if is_special {
        let special = [0x7c00, 0xfc00, 0x7e00, 0xfdff][draw.below(4) as usize];
        all[draw.below(4) as usize] = special;
        code = 15;
    }
    if is_stray {
        // the place of the first one; a special value may stand before it
        let place = draw.below(4);
        let stray = [0x1_0000, 0x7fff_3c00, 1 << 63][draw.below(3) as usize];
        let behind = place + draw.below(4 - place);
        (all[place as usize], all[behind as usize]) = (stray, stray);
        code = 7 + 256 * place;
    }
    (all, code)
}

/// Every choice of conditions, in several ways: the first in the order 2, 3, 4, 7, 15, 14 is
/// returned, and nothing is written.
#[test]
fn refusals_in_their_order() {
    let mut draw = Draw(14);
    for round in 0..64 * 100 {
        let bad: [bool; 6] = std::array::from_fn(|i| round >> i & 1 == 1);
        let (all, code) = faulty_values(&mut draw, [bad[3], bad[4], bad[5]]);
        let way = draw.below(10) as usize;
        let (f, bias) = if bad[1] {
            BAD_FORMATS[way]
        } else {
            (BINARY16, None)
        };
        let way = draw.below(10) as usize;
        let c = if bad[2] {
            BAD_SETTINGS[way]
        } else {
            THREE_DIGITS
        };
        let room = if bad[0] {
            draw.below(8)
        } else {
            8 + draw.below(9)
        };

        let mut answer = [UNTOUCHED; 16];
        let lent = &mut answer[..room as usize];
        let given = raw::contribution(f, bias, c, all[3], &all[..3], lent);
        let before = [2, 3, 4].into_iter().zip(bad).find(|&(_, holds)| holds);
        let expected = before.map_or(code, |(code, _)| code);
        assert_eq!(given, expected, "{bad:?} {f:?} {c:?} {all:x?}");
        let written = if given == 0 { 8 } else { 0 };
        assert!(answer[written..].iter().all(|&byte| byte == UNTOUCHED));
    }
}

/// A precision is blamed where it is at fault, and a switch where it alone is.
#[test]
fn settings_and_formats_refused() {
    let halves = Totals::of(Format::BINARY16);
    let asked = |c, list: &[u64]| halves.with_settings(c).contribution(list, 0);
    let precise = PLAIN.with_precision(12);
    let (precision, digits) = (12, 11);
    let precision = Err(Refusal::PrecisionOutOfRange { precision, digits });
    let setting = Err(Refusal::SettingOutOfRange);
    assert_eq!(asked(precise, &[0x1_0000]), precision);
    assert_eq!(asked(precise.with_flush_to_zero(true), &[]), precision);
    for c in [PLAIN, PLAIN.with_precision(11), PLAIN.with_precision(1)] {
        assert_eq!(asked(c.with_flush_to_zero(true), &[0x1_0000]), setting);
        assert_eq!(asked(c.with_denormals_are_zero(true), &[0x7e00]), setting);
        assert!(asked(c.with_saturate(true), &[]).is_ok());
    }
    let off = PLAIN.with_denormals_are_zero(true);
    let doubles = Totals::<f64>::new().with_settings(off);
    let given = doubles.contribution(&[1.0], 2.0);
    assert_eq!(given, Err(Refusal::SettingOutOfRange));
    for format in [
        Format::EXTENDED,
        Format::E4M3,
        Format::E5M2_FNUZ,
        Format::E3M2,
        Format::new(Kind::Ieee, 1, 16),
        Format::BINARY16.with_bias(-FARTHEST - 1),
    ] {
        let none = Totals::of(format).with_settings(precise);
        let given = none.contribution(&[u64::MAX], 0);
        assert_eq!(given, Err(Refusal::NoSuchFormat));
    }
}

#[test]
fn values_refused() {
    let halves = Totals::of(Format::BINARY16);
    let stray = |place| Err(Refusal::StrayBit { place, list: None });
    let list = [0x7e00, 0x1_0000, 0x1_0000];
    assert_eq!(halves.contribution(&list, 1 << 63), stray(1));
    assert_eq!(halves.contribution(&list[..1], 0x1_0000), stray(1));
    assert_eq!(halves.contribution(&[], u64::MAX), stray(0));
    let list = [0x7bff, 0x7bff, 0x7c00];
    assert_eq!(halves.contribution(&list, 0), Err(Refusal::NotFinite));
    let none = Err(Refusal::NoContribution);
    assert_eq!(halves.contribution(&list[..2], 0), none);
}

/// As many values as a list may have otherwise: 6 comes behind 2, 3 and 4, and before 7, 15 and 14.
#[test]
fn as_many_values_as_other_lists_may_have() {
    let half = Format::BINARY16;
    let mut values = vec![0u64; LIMIT];
    (values[0], values[1], values[LIMIT - 1]) = (0x1_0000, 0x7e00, 0x1_0000);
    let asked = |c, wanted| entered(half, c, &values, wanted);
    assert_eq!(asked(PLAIN, 0), Err(6));
    assert_eq!(asked(PLAIN, 0x1_0000), Err(6));
    assert_eq!(asked(PLAIN, 0x7e00), Err(6));
    assert_eq!(asked(PLAIN.with_flush_to_zero(true), 0), Err(4));
    assert_eq!(asked(PLAIN.with_precision(12), 0), Err(4));
    assert_eq!(entered(Format::E4M3, PLAIN, &values, 0), Err(3));
    let mut answer = [UNTOUCHED; 7];
    let short = raw::contribution(BINARY16, None, [0; 8], 0, &values, &mut answer);
    assert_eq!((short, answer), (2, [UNTOUCHED; 7]));
    let too_many = Err(Refusal::TooManyElements);
    assert_eq!(Totals::of(half).contribution(&values, 0), too_many);

    let zeros = vec![0f64; LIMIT];
    for wanted in [0.0, 1.0, f64::NAN] {
        let given = contribution(&zeros, wanted);
        assert_eq!(given, Err(Refusal::TooManyElements));
    }
}

/// One value less is looked at to its end, and so is the wanted total.
#[test]
fn one_value_less_than_other_lists_may_have() {
    let half = Format::BINARY16;
    let mut values = vec![0u64; LIMIT - 1];
    let last = LIMIT - 2;
    let stray = |place: usize| Err(7 + 256 * place as u64);
    assert_eq!(entered(half, PLAIN, &values, 0x1_0000), stray(last + 1));
    values[last] = 0x7e00;
    assert_eq!(entered(half, PLAIN, &values, 0), Err(15));
    values[last] = 0x1_0000;
    assert_eq!(entered(half, PLAIN, &values, 0x7e00), stray(last));
}

/// In four bits five sums find one of eleven numbers, in binary64 it takes some 65.
#[test]
fn the_longest_list() {
    let mut values = vec![0u64; LIMIT - 1];
    values[LIMIT - 2] = 1;
    let four = Format::new(Kind::Ieee, 2, 4);
    assert_eq!(entered(four, PLAIN, &values, 0), Ok(9));
}
