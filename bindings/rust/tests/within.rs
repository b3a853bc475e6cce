//! A first figure within an allowance of passes, through `raw`, `Totals` and the free functions.
//! The expectations are rows that the specification gives or that were worked out by hand, and a chain
//! that is run pass by pass in exact arithmetic; of a full answer, the record of the plain total.

mod chain;
mod common;
mod draw;
mod numbers;

use std::cmp::Ordering::{Equal, Greater, Less};

use chain::{beside_zero, dot_terms, passes, sum_terms, Part, Pass, Term};
use common::ROUNDINGS;
use draw::Draw;
use fermuzhai::{
    dot, dot_within, raw, sum, sum_within, Estimate, Format, Kind, List, Record, Refusal, Rounding,
    Settings, Summand, Totals, Unfinished,
};

const LIMIT: usize = 1 << 28;
const FARTHEST: i64 = Format::FARTHEST_BIAS;
const UNTOUCHED: u8 = 0xa5;
const BINARY64: raw::Format = [0, 11, 64];
const MINUS: u64 = 1 << 63;
const SUMMANDS: [Summand; 3] = [Summand::Value, Summand::Magnitude, Summand::Square];

/// 13 bits of exponent and five digits.
const WIDE: Format = Format::new(Kind::Ieee, 13, 18);

/// 2^n as an encoding of binary64, for a normal number.
fn power(n: i64) -> u64 {
    ((n + 1023) as u64) << 52
}

/// 2^n in `WIDE`.
fn wide(n: i64) -> u64 {
    ((n + 4095) as u64) << 4
}

const WIDE_MINUS: u64 = 1 << 17;

/// The answer's bytes, but for S, as numbers.
#[derive(Clone, Copy, Debug, PartialEq)]
struct Fields {
    result: u64,
    flags: u8,
    mark: u8,
    side: u8,
    minus: u8,
    passes: u64,
    last_edge: i64,
    whole: u64,
    unit: i64,
}

/// S as the entry writes it.
type Sum = [u8; 96];

fn word(bytes: &[u8]) -> u64 {
    u64::from_le_bytes(bytes.try_into().unwrap())
}

/// What the entry leaves, whatever was in the buffer: 144 bytes and none beyond; or its code, and
/// then nothing.
fn enter(call: impl Fn(&mut [u8]) -> u64) -> Result<(Fields, Sum), u64> {
    let mut given = None;
    for filling in [UNTOUCHED, !UNTOUCHED] {
        let mut answer = [filling; 144 + 24];
        let code = call(&mut answer);
        let written = if code == 0 { 144 } else { 0 };
        let beyond = answer[written..].iter();
        assert!({ beyond }.all(|&byte| byte == filling), "beyond the answer");
        let read = || {
            assert_eq!(answer[12..16], [0; 4]);
            let fields = Fields {
                result: word(&answer[..8]),
                flags: answer[8],
                mark: answer[9],
                side: answer[10],
                minus: answer[11],
                passes: word(&answer[16..24]),
                last_edge: word(&answer[24..32]) as i64,
                whole: word(&answer[32..40]),
                unit: word(&answer[40..48]) as i64,
            };
            (fields, answer[48..144].try_into().unwrap())
        };
        let entered = if code == 0 { Ok(read()) } else { Err(code) };
        assert_eq!(*given.get_or_insert(entered), entered);
    }
    given.unwrap()
}

/// A sum by its summand, or a dot.
#[derive(Clone, Copy, Debug)]
enum Of<'a> {
    Sum(Summand, &'a [u64]),
    Dot(&'a [u64], &'a [u64]),
}

impl Of<'_> {
    fn entered(self, totals: Totals<u64>, allowance: u64) -> Result<(Fields, Sum), u64> {
        let f = totals.format();
        let (numbers, c) = (f.into(), totals.settings().into());
        match self {
            Of::Sum(summand, values) => {
                let values = raw::bytes(values);
                enter(|answer| {
                    let u = summand as u64;
                    raw::sum_within(numbers, f.named_bias, c, u, allowance, &values, answer)
                })
            }
            Of::Dot(left, right) => {
                let (left, right) = (raw::bytes(left), raw::bytes(right));
                enter(|answer| {
                    raw::dot_within(numbers, f.named_bias, c, allowance, &left, &right, answer)
                })
            }
        }
    }

    fn within(self, totals: Totals<u64>, allowance: u64) -> Result<Estimate<u64>, Refusal> {
        match self {
            Of::Sum(summand, values) => totals.sum_of_within(summand, values, allowance),
            Of::Dot(left, right) => totals.dot_within(left, right, allowance),
        }
    }

    fn plain(self, totals: Totals<u64>) -> Result<Record<u64>, Refusal> {
        match self {
            Of::Sum(summand, values) => totals.sum_of(summand, values),
            Of::Dot(left, right) => totals.dot(left, right),
        }
    }

    fn terms(self, totals: Totals<u64>) -> Option<Vec<Term>> {
        let (f, is_zero) = (totals.format(), totals.settings().denormals_are_zero);
        match self {
            Of::Sum(summand, values) => sum_terms(f, is_zero, summand, values),
            Of::Dot(left, right) => dot_terms(f, is_zero, left, right),
        }
    }

    fn count(self) -> usize {
        match self {
            Of::Sum(_, list) | Of::Dot(list, _) => list.len(),
        }
    }
}

/// An answer that is full: the plain record, and an edge that it does not say.
fn full_fields(record: Record<u64>, last_edge: i64) -> Fields {
    Fields {
        result: record.result,
        flags: record.flags.bits(),
        mark: 0,
        side: record.side as u8,
        minus: 0,
        passes: record.passes,
        last_edge,
        whole: 0,
        unit: 0,
    }
}

/// An answer that stops at a pass.
fn unfinished_fields(pass: &Pass, allowance: u64) -> Fields {
    let bound = pass.bound;
    Fields {
        result: 0,
        flags: 0,
        mark: 1,
        side: 0,
        minus: bound.is_some_and(|bound| bound.is_negative).into(),
        passes: allowance,
        last_edge: pass.edge,
        whole: bound.map_or(0, |bound| bound.whole.try_into().unwrap()),
        unit: bound.map_or(0, |bound| bound.unit),
    }
}

fn sum_bytes(pass: &Pass) -> Sum {
    let words: Vec<[u8; 4]> = pass.sum.iter().map(|digit| digit.to_le_bytes()).collect();
    words.as_flattened().try_into().unwrap()
}

/// S and the boundary of a pass.
fn shown(pass: &Pass) -> Vec<Part> {
    let bound = pass.bound.into_iter();
    let bound = bound.map(|bound| Part::of(bound.is_negative, bound.whole, bound.unit));
    [Part::of_window(&pass.sum, pass.edge)]
        .into_iter()
        .chain(bound)
        .collect()
}

fn less(parts: &[Part], other: &[Part]) -> bool {
    let other = other.iter().map(Part::negated);
    let all: Vec<Part> = parts.iter().cloned().chain(other).collect();
    beside_zero(&all) == Less
}

/// The double above one that is below infinity.
fn above(x: f64) -> f64 {
    match x.partial_cmp(&0.0).unwrap() {
        Equal => f64::from_bits(1),
        Greater => f64::from_bits(x.to_bits() + 1),
        Less => f64::from_bits(x.to_bits() - 1) + 0.0,
    }
}

/// Whether a double, or infinity, is below a number.
fn is_below(x: f64, parts: &[Part]) -> bool {
    x == f64::NEG_INFINITY || (x != f64::INFINITY && less(&[Part::of_double(x)], parts))
}

fn is_above(x: f64, parts: &[Part]) -> bool {
    x == f64::INFINITY || (x != f64::NEG_INFINITY && less(parts, &[Part::of_double(x)]))
}

/// The bounds have the exact sum between them, and are the narrowest doubles around the figure and
/// a unit for each element.
fn check_bounds(seen: &Unfinished, pass: &Pass, terms: &[Term], count: usize) {
    let exact: Vec<Part> = terms.iter().map(Part::of_term).collect();
    let shown = shown(pass);
    let off = |is_negative, n: usize| {
        let more = Part::of(is_negative, n as u128, pass.edge);
        [shown.as_slice(), &[more]].concat()
    };
    // what is promised of S, the boundary and the edge
    assert!(less(&off(true, terms.len()), &exact) && less(&exact, &off(false, terms.len())));

    let (lower, upper) = seen.bounds();
    assert!(!is_above(lower, &exact) && !is_below(upper, &exact));
    let (least, most) = (off(true, count), off(false, count));
    assert!(!is_above(lower, &least) && !is_below(upper, &most));
    assert!(is_above(above(lower), &least), "{lower:e} could be more");
    assert!(is_below(-above(-upper), &most), "{upper:e} could be less");
    for bound in [lower, upper] {
        assert!(bound != 0.0 || bound.is_sign_positive());
    }

    // twice the number beside the figure and each neighbour
    let figure = seen.figure();
    assert!(lower <= figure && figure <= upper);
    let twice: Vec<Part> = shown.iter().chain(&shown).cloned().collect();
    let is_even = figure.to_bits() % 2 == 0;
    let middle = |a: f64, b: f64| {
        // beyond the greatest double lies 2^1024, as infinity
        let part = |x: f64| match x.is_infinite() {
            true => Part::of(x < 0.0, 1, 1024),
            false => Part::of_double(x),
        };
        [part(a), part(b)]
    };
    if figure != f64::INFINITY {
        let middle = middle(figure, above(figure));
        assert!(less(&twice, &middle) || (is_even && !less(&middle, &twice)));
    }
    if figure != f64::NEG_INFINITY {
        let middle = middle(figure, -above(-figure));
        assert!(less(&middle, &twice) || (is_even && !less(&twice, &middle)));
    }
}

/// An estimate of an accepted list is what the chain gives.
fn check_at(totals: Totals<u64>, of: Of<'_>, allowance: u64, pass: Option<&Pass>, last_edge: i64) {
    let record = of.plain(totals).unwrap();
    let (fields, sum) = of.entered(totals, allowance).unwrap();
    let estimate = of.within(totals, allowance).unwrap();
    let Some(pass) = pass else {
        assert_eq!(fields, full_fields(record, last_edge));
        assert_eq!(sum, [0; 96]);
        assert_eq!(estimate, Estimate::Full(record));
        assert_eq!(
            (estimate.full(), estimate.unfinished()),
            (Some(record), None)
        );
        return;
    };
    assert_eq!(fields, unfinished_fields(pass, allowance));
    assert_eq!(sum, sum_bytes(pass));
    let seen = estimate.unfinished().unwrap();
    assert_eq!((seen.passes, estimate.passes()), (allowance, allowance));
    assert_eq!((seen.last_edge, seen.elements), (pass.edge, of.count()));
    let (is_negative, magnitude) = chain::signed(&pass.sum);
    let pair = |i: usize| u64::from(magnitude[2 * i]) | u64::from(magnitude[2 * i + 1]) << 32;
    assert_eq!(seen.sum.is_negative, is_negative);
    assert_eq!(seen.sum.magnitude, std::array::from_fn(pair));
    assert_eq!(seen.sum.is_zero(), magnitude == [0; 24]);
    let bound = seen
        .boundary
        .map(|b| (b.is_negative, u128::from(b.whole), b.unit));
    assert_eq!(bound, pass.bound.map(|b| (b.is_negative, b.whole, b.unit)));
    assert_eq!(estimate.full(), None);
}

/// Every allowance from 1 to one more than the passes, or the first and the last ones of a long
/// chain and its thousandth, and the greatest.
fn check(totals: Totals<u64>, of: Of<'_>) {
    let record = of.plain(totals).unwrap();
    let terms = of.terms(totals).unwrap_or_default();
    let passes: Vec<Pass> = passes(&terms, totals.format().digits()).collect();
    assert_eq!(record.passes, passes.len() as u64, "{totals:?} {of:?}");
    let last_edge = passes.last().map_or(0, |pass| pass.edge);
    let end = record.passes + 1;
    let long = |k: &u64| *k <= 4 || *k == 1_000 || *k + 4 > end;
    let is_narrow = terms.iter().all(|term| term.exponent.abs() < 1 << 17);
    for allowance in (1..=end).filter(long).chain([u64::MAX]) {
        let pass = if allowance < record.passes {
            passes.get(allowance as usize - 1)
        } else {
            None
        };
        check_at(totals, of, allowance, pass, last_edge);
        if let (Some(pass), true) = (pass, is_narrow) {
            let seen = of.within(totals, allowance).unwrap().unfinished().unwrap();
            check_bounds(&seen, pass, &terms, of.count());
        }
    }
    assert_eq!(of.entered(totals, 0), Err(16));
    assert_eq!(of.within(totals, 0), Err(Refusal::NoPassAllowed));
}

fn unfinished(totals: Totals<u64>, values: &[u64], allowance: u64) -> Unfinished {
    let estimate = totals.sum_within(values, allowance).unwrap();
    estimate.unfinished().unwrap()
}

/// The rows of the specification, and those beside them: S as powers of two, the edge, the boundary.
#[test]
fn rows() {
    let b64 = Totals::of(Format::BINARY64);
    let five = Totals::of(WIDE);
    let c5 = [power(1000), power(0), MINUS | power(1000)];
    let c7 = [power(0), power(-53), power(-1000)];
    let gap = [wide(4000), WIDE_MINUS | wide(4000), wide(-4000)];
    let far = [wide(4000), wide(-4000)];
    type Row<'a> = (
        Totals<u64>,
        &'a [u64],
        u64,
        (bool, &'a [usize], i64),
        Option<(bool, u64, i64)>,
    );
    #[rustfmt::skip]
    let rows: [Row; 9] = [
        (b64, &[MINUS | power(1023), 1], 1, (true, &[702], 321), None),
        (b64, &c5, 1, (false, &[], 298), None),
        (b64, &c7, 1, (false, &[702, 649], -702), None),
        (five, &gap, 1, (false, &[], 3298), None),
        (five, &gap, 2, (false, &[], 2532), None),
        (five, &gap, 9, (false, &[], -2830), None),
        (five, &gap, 10, (false, &[], -3596), None),
        (five, &far, 2, (false, &[], 2597), Some((false, 0x20, 3995))),
        (five, &far, 3, (false, &[], 1831), Some((false, 0x20, 3995))),
    ];
    for (totals, values, allowance, (is_negative, powers, last_edge), boundary) in rows {
        let seen = unfinished(totals, values, allowance);
        let mut magnitude = [0; 12];
        for power in powers {
            magnitude[power / 64] |= 1 << (power % 64);
        }
        assert_eq!(
            (seen.sum.is_negative, seen.sum.magnitude),
            (is_negative, magnitude)
        );
        assert_eq!((seen.last_edge, seen.passes), (last_edge, allowance));
        assert_eq!(
            seen.boundary.map(|b| (b.is_negative, b.whole, b.unit)),
            boundary
        );
        let length = powers.iter().max().map_or(0, |power| power + 1);
        assert_eq!(seen.sum.bit_length() as usize, length);
    }

    let full = |totals: Totals<u64>, values: &[u64], allowance| {
        let of = Of::Sum(Summand::Value, values);
        let (fields, _) = of.entered(totals, allowance).unwrap();
        assert_eq!(fields.mark, 0);
        (fields.result, fields.flags, fields.passes, fields.last_edge)
    };
    // C5, C7 and the gap in time; the last edge is that of the last pass
    for allowance in [2, 3, u64::MAX] {
        assert_eq!(full(b64, &c5, allowance), (power(0), 0, 2, 298 - 766));
        assert_eq!(full(b64, &c7, allowance), (power(0) + 1, 0x50, 2, -1403));
    }
    assert_eq!(full(five, &gap, 11), (wide(-4000), 0, 11, -4362));
    // no pass is needed
    let nan = 0x7ff8 << 48;
    assert_eq!(full(b64, &[power(1000), nan, 1], 1), (nan, 0x80, 0, 0));
    let infinity = 0x7ff0 << 48;
    assert_eq!(
        full(b64, &[power(1000), infinity, power(-1000)], 1),
        (infinity, 0, 0, 0)
    );
    assert_eq!(full(b64, &[MINUS, MINUS], 1), (MINUS, 0, 0, 0));
    assert_eq!(full(b64, &[], 1), (0, 0, 0, 0));
    // and of each of these lists everything by the chain
    for (totals, list) in [(b64, &c5[..]), (b64, &c7), (five, &gap), (five, &far)] {
        for summand in SUMMANDS {
            check(totals, Of::Sum(summand, list));
        }
        check(totals, Of::Dot(list, list));
    }
}

const KINDS: [Kind; 4] = [Kind::Ieee, Kind::NoInf, Kind::Fnuz, Kind::Finite];
const WIDTHS: [(u8, u8); 9] = [
    (2, 4),
    (4, 8),
    (5, 16),
    (8, 32),
    (11, 64),
    (2, 64),
    (13, 18),
    (15, 64),
    (16, 30),
];
const BIASES: [Option<i64>; 4] = [None, None, Some(-40), Some(2000)];

/// A list that takes several passes where the format lets it: values of any exponent, many of them
/// taken back.
fn drawn(draw: &mut Draw, f: Format) -> Vec<u64> {
    let mask = u64::MAX >> (64 - f.width);
    let sign = 1 << (f.width - 1);
    let fraction = f.width - f.exponent_bits - 1;
    let mut list = Vec::new();
    for _ in 0..draw.below(6) {
        // fractions of a few digits: the sum then lies near a boundary
        let kept = match draw.below(3) {
            0 => mask,
            1 => !0 << fraction,
            _ => !0 << (fraction - fraction.min(2)),
        };
        let value = draw.next() & mask & (kept | sign);
        list.push(value);
        if draw.below(2) == 0 {
            list.push(value ^ sign);
        }
    }
    for i in (1..list.len()).rev() {
        list.swap(i, draw.below(i as u64 + 1) as usize);
    }
    list
}

#[test]
fn lists_of_every_kind() {
    let mut draw = Draw(13);
    let mut chains = [0; 4];
    for round in 0..1500 {
        let kind = KINDS[draw.below(4) as usize];
        let (exponent_bits, width) = WIDTHS[draw.below(9) as usize];
        let mut format = Format::new(kind, exponent_bits, width);
        format.named_bias = BIASES[draw.below(4) as usize];
        let settings = Settings::new()
            .with_rounding(ROUNDINGS[draw.below(8) as usize])
            .with_denormals_are_zero(draw.below(4) == 0)
            .with_flush_to_zero(draw.below(4) == 0)
            .with_saturate(draw.below(4) == 0);
        let totals = Totals::of(format).with_settings(settings);
        let list = drawn(&mut draw, format);
        let mut other = drawn(&mut draw, format);
        other.resize(list.len(), list.first().copied().unwrap_or(0));
        let of = match round % 5 {
            0 | 1 => Of::Sum(Summand::Value, &list),
            2 => Of::Sum(Summand::Magnitude, &list),
            3 => Of::Sum(Summand::Square, &list),
            _ => Of::Dot(&list, &other),
        };
        check(totals, of);
        chains[of.plain(totals).unwrap().passes.min(3) as usize] += 1;
    }
    assert!(chains.iter().all(|&n| n > 50), "{chains:?}");
}

/// Where a chain of hundreds of thousands of passes stands at both ends of its run, and inside.
#[test]
fn a_run_of_empty_passes() {
    let deep = Format::new(Kind::Ieee, 28, 64);
    let field = |n: u64| n << 35;
    let (most, minus) = (field((1 << 28) - 2), MINUS);
    for list in [
        vec![most, minus | most, 1],
        vec![minus | most, 1],
        vec![most, field(5 << 20), minus | field(5 << 20), 1, minus | 2],
    ] {
        check(Totals::of(deep), Of::Sum(Summand::Value, &list));
    }
    let totals = Totals::of(deep.with_bias(-FARTHEST));
    check(totals, Of::Dot(&[most, most, 1], &[most, minus | most, 1]));
    let list = [most, minus | most, 1];
    assert_eq!(totals.sum(&list).unwrap().passes, 350_439);
}

/// Bounds of sums that no double has: far above, far below and beside zero; and of boundaries far
/// above the edge.
#[test]
fn bounds_beyond_the_doubles() {
    let five = Totals::of(WIDE);
    let of = |list: &[u64], allowance| unfinished(five, list, allowance);
    let (above, below) = (wide(4000), wide(-4000));
    for k in 1..=10 {
        let seen = of(&[above, below], k);
        assert_eq!(seen.bounds(), (f64::MAX, f64::INFINITY));
        assert_eq!(seen.figure(), f64::INFINITY);
        let seen = of(&[WIDE_MINUS | above, below], k);
        assert_eq!(seen.bounds(), (f64::NEG_INFINITY, -f64::MAX));
        assert_eq!(seen.figure(), f64::NEG_INFINITY);
        assert_eq!(
            seen.to_string(),
            format!("between -inf and {}, passes {k}", -f64::MAX)
        );
    }
    // −3596 is the last edge of nothing but zeros: three units of it are far below the least double
    let seen = of(&[above, WIDE_MINUS | above, below], 10);
    assert_eq!(seen.bounds(), (-5e-324, 5e-324));
    assert_eq!(
        (seen.figure(), seen.figure().is_sign_positive()),
        (0.0, true)
    );
    assert_eq!(seen.sum.to_i128(), Some(0));
    // 2^−1060 and less: subnormal doubles, of which none is between
    let seen = of(&[wide(-1060), below], 2);
    assert_eq!(seen.figure(), f64::from_bits(1 << 14));
    let around = (f64::from_bits((1 << 14) - 1), f64::from_bits((1 << 14) + 1));
    assert_eq!(seen.bounds(), around);
}

/// Fields that no entry gives have some bounds, and do not panic.
#[test]
fn bounds_of_any_fields() {
    let mut seen = unfinished(Totals::of(WIDE), &[wide(4000), wide(-4000)], 2);
    for last_edge in [i64::MIN, -1, 0, 700, i64::MAX] {
        for unit in [i64::MIN, -900, 0, 3, 900, i64::MAX] {
            for word in [0, 1, u64::MAX] {
                seen.last_edge = last_edge;
                seen.sum.magnitude = [word; 12];
                seen.elements = usize::MAX;
                let boundary = seen.boundary.as_mut().unwrap();
                (boundary.unit, boundary.whole) = (unit, u64::MAX - word);
                let (lower, upper) = seen.bounds();
                assert!(lower <= upper);
            }
        }
    }
    assert_eq!(seen.sum.to_i128(), None);
    for (bits, sum) in [(127, None), (126, Some(1 << 126))] {
        seen.sum.magnitude = [0; 12];
        seen.sum.magnitude[bits / 64] = 1 << (bits % 64);
        assert_eq!(seen.sum.to_i128(), sum);
        seen.sum.is_negative = true;
        assert_eq!(seen.sum.to_i128(), sum.map(|n: i128| -n));
        seen.sum.is_negative = false;
    }
}

/// Floats and bytes have what their encodings have.
#[test]
fn floats_and_bytes() {
    let list = [
        power(1000),
        power(0),
        MINUS | power(1000),
        1,
        0x3fb9_9999_9999_999a,
    ];
    let floats = list.map(f64::from_bits);
    let words = Totals::of(Format::BINARY64);
    let bytes = raw::bytes(&list);
    let same = |of_floats: Estimate<f64>, of_words: Estimate<u64>| match (of_floats, of_words) {
        (Estimate::Full(one), Estimate::Full(other)) => {
            assert_eq!(one.result.to_bits(), other.result);
            let rest = |record: Record<u64>| (record.flags, record.passes, record.side);
            assert_eq!((one.flags, one.passes, one.side), rest(other));
        }
        (one, other) => assert_eq!(one.unfinished().unwrap(), other.unfinished().unwrap()),
    };
    let totals = Totals::<f64>::new();
    for k in 1..=5 {
        same(
            sum_within(&floats, k).unwrap(),
            words.sum_within(&list, k).unwrap(),
        );
        same(
            dot_within(&floats, &floats, k).unwrap(),
            words.dot_within(&list, &list, k).unwrap(),
        );
        for summand in SUMMANDS {
            let of_words = words.sum_of_within(summand, &list, k);
            assert_eq!(words.sum_bytes_within(summand, &bytes, k), of_words);
            let of_floats = totals.sum_of_within(summand, &floats, k);
            assert_eq!(totals.sum_bytes_within(summand, &bytes, k), of_floats);
            same(of_floats.unwrap(), of_words.unwrap());
        }
        let of_words = words.dot_within(&list, &list, k);
        assert_eq!(words.dot_bytes_within(&bytes, &bytes, k), of_words);
    }
    assert_eq!(
        sum_within(&floats, 5).unwrap().full(),
        Some(sum(&floats).unwrap())
    );
    assert_eq!(
        dot_within(&floats, &floats, 7).unwrap().full(),
        Some(dot(&floats, &floats).unwrap())
    );
    // no list of f32 takes a second pass, and a dot of them none either
    let singles = [f32::MAX, 1.0, -f32::MAX, 1e-45];
    assert_eq!(
        sum_within(&singles, 1).unwrap(),
        Estimate::Full(sum(&singles).unwrap())
    );
    let product = dot(&singles, &singles).unwrap();
    assert_eq!(
        dot_within(&singles, &singles, 1).unwrap(),
        Estimate::Full(product)
    );
}

/// Every order of a list has one estimate, and a larger allowance no wider bound.
#[test]
fn orders_and_larger_allowances() {
    let mut list = [
        wide(4000),
        WIDE_MINUS | wide(4000),
        wide(100),
        3,
        WIDE_MINUS | 7,
        wide(-2000),
    ];
    let totals = Totals::of(WIDE);
    let passes = totals.sum(&list).unwrap().passes;
    let each: Vec<Estimate<u64>> = (1..=passes + 2)
        .map(|k| totals.sum_within(&list, k).unwrap())
        .collect();
    let mut draw = Draw(3);
    for _ in 0..50 {
        for i in (1..list.len()).rev() {
            list.swap(i, draw.below(i as u64 + 1) as usize);
        }
        for (k, estimate) in (1..).zip(&each) {
            assert_eq!(totals.sum_within(&list, k).unwrap(), *estimate);
        }
    }
    let seen: Vec<Unfinished> = each.iter().filter_map(|e| e.unfinished()).collect();
    assert_eq!(seen.len() as u64, passes - 1);
    for (one, next) in seen.iter().zip(&seen[1..]) {
        assert!(next.last_edge < one.last_edge);
        let (wider, narrower) = (one.bounds(), next.bounds());
        assert!(wider.0 <= narrower.0 && narrower.1 <= wider.1);
    }
    assert_eq!(each[passes as usize - 1], each[passes as usize + 1]);
    let hashed: std::collections::HashSet<Estimate<u64>> = each.iter().copied().collect();
    assert_eq!(hashed.len() as u64, passes);
}

/// Numbers of a call, each right or wrong: the lowest refusal that holds is given, with 16 in front
/// of 3, and nothing is written.
#[test]
fn refusals_in_their_order() {
    let stray = [0x3c00, 0x1_0000].map(u64::to_le_bytes);
    let good = [0x3c00u64, 0x3c00].map(u64::to_le_bytes);
    for at in 0..1 << 9 {
        let is_bad = |i: u32| at >> i & 1 == 1;
        let mut settings = [0; 8];
        let mut summand = 2;
        let mut format = [0, 5, 16];
        if is_bad(3) {
            format[0] = 4;
        }
        let bias = is_bad(4).then_some(FARTHEST + 1);
        if is_bad(5) {
            settings[0] = 8;
        }
        if is_bad(6) {
            summand = 3;
        }
        let values = if is_bad(7) { stray } else { good };
        // of kind 4 a value has ten bytes
        let (whole, one) = if is_bad(3) { (10, 0) } else { (16, 8) };
        let list = &values.as_flattened()[..whole - usize::from(is_bad(0))];
        let room = if is_bad(1) { 143 } else { 144 };
        let allowance = if is_bad(2) { 0 } else { 1 };
        let right = if is_bad(8) { &list[..one] } else { list };

        let wanted = |of_format: bool, of_setting: bool, of_lengths: bool| match () {
            () if is_bad(0) => 1,
            () if is_bad(1) => 2,
            () if is_bad(2) => 16,
            () if of_format => 3,
            () if of_setting => 4,
            () if of_lengths => 5,
            () if is_bad(7) => 7 + 256,
            () => 0,
        };
        let is_format = is_bad(3) || is_bad(4);
        let mut answer = [UNTOUCHED; 144];
        let given = raw::sum_within(
            format,
            bias,
            settings,
            summand,
            allowance,
            list,
            &mut answer[..room],
        );
        assert_eq!(
            given,
            wanted(is_format, is_bad(5) || is_bad(6), false),
            "{at:b}"
        );
        assert_eq!(given != 0, answer == [UNTOUCHED; 144]);

        let mut answer = [UNTOUCHED; 144];
        let given = raw::dot_within(
            format,
            bias,
            settings,
            allowance,
            list,
            right,
            &mut answer[..room],
        );
        assert_eq!(given, wanted(is_format, is_bad(5), is_bad(8)), "{at:b}");
        assert_eq!(given != 0, answer == [UNTOUCHED; 144]);
    }
    // an uneven right list, and a stray bit in it alone
    let (list, stray) = (good.as_flattened(), stray.as_flattened());
    let mut answer = [UNTOUCHED; 144];
    let mut dot =
        |right: &[u8]| raw::dot_within([0, 5, 16], None, [0; 8], 1, list, right, &mut answer);
    assert_eq!((dot(&list[..15]), dot(stray)), (1, 7 + 256));
    // no such kind, and the other ways to have no format, behind an allowance of zero
    for format in [
        [9, 5, 16],
        [0, 1, 16],
        [0, 29, 64],
        [0, 5, 6],
        [0, 5, 65],
        [4, 15, 80],
    ] {
        let list = if format[0] == 4 { &list[..10] } else { list };
        for allowance in [0, 1, u64::MAX] {
            let wanted = if allowance == 0 { 16 } else { 3 };
            let code = raw::sum_within(format, None, [8; 8], 3, allowance, list, &mut answer);
            assert_eq!(code, wanted);
            let code = raw::dot_within(format, None, [8; 8], allowance, list, &[], &mut answer);
            assert_eq!(code, wanted);
        }
    }
    assert_eq!(answer, [UNTOUCHED; 144]);
}

/// A list of kind 4 is counted by tens: where it is whole it has 3, and else 1, before a short
/// buffer and no allowance; a list of words has no such value.
#[test]
fn eighty_bits_by_tens() {
    let zeros = [0; 100];
    let mut answer = [UNTOUCHED; 144];
    for (format, bias) in [
        ([4, 15, 80], None),
        ([4, 15, 80], Some(16383)),
        ([4, 11, 64], None),
    ] {
        for size in 0..=zeros.len() {
            let list = &zeros[..size];
            let is_whole = size % 10 == 0;
            for (allowance, room, whole) in
                [(1, 144, 3), (u64::MAX, 144, 3), (0, 144, 16), (0, 143, 2)]
            {
                let wanted = if is_whole { whole } else { 1 };
                let room = &mut answer[..room];
                let given = raw::sum_within(format, bias, [0; 8], 0, allowance, list, room);
                assert_eq!(given, wanted, "{size}");
                let given = raw::dot_within(format, bias, [0; 8], allowance, list, &[0; 20], room);
                assert_eq!(given, wanted, "{size}");
                let given = raw::dot_within(format, bias, [0; 8], allowance, &[0; 20], list, room);
                assert_eq!(given, wanted, "{size}");
            }
        }
    }
    assert_eq!(answer, [UNTOUCHED; 144]);

    let extended = Totals::of(Format::EXTENDED);
    for values in [&[][..], &[1], &[1, 2, 3, 4], &[1, 2, 3, 4, 5]] {
        for (allowance, wanted) in [(0, Refusal::NoPassAllowed), (1, Refusal::NoSuchFormat)] {
            assert_eq!(extended.sum_within(values, allowance), Err(wanted));
            assert_eq!(extended.dot_within(values, &[1], allowance), Err(wanted));
            assert_eq!(extended.dot_within(&[1], values, allowance), Err(wanted));
        }
    }
    let bytes = |size| extended.sum_bytes_within(Summand::Value, &zeros[..size], 1);
    assert_eq!(bytes(10), Err(Refusal::NoSuchFormat));
    assert_eq!(bytes(8), Err(Refusal::UnevenLength { list: None }));
}

/// A refusal says which setting and which list.
#[test]
fn refusals_by_name() {
    let halves = Totals::of(Format::BINARY16);
    let precise = halves.with_settings(Settings::new().with_precision(12));
    let out = Err(Refusal::PrecisionOutOfRange {
        precision: 12,
        digits: 11,
    });
    assert_eq!(precise.sum_within(&[0x3c00], 1), out);
    assert_eq!(precise.dot_within(&[0x3c00], &[], 1), out);
    assert_eq!(
        precise.sum_within(&[0x3c00], 0),
        Err(Refusal::NoPassAllowed)
    );
    assert_eq!(
        precise.dot_within(&[0x3c00], &[], 0),
        Err(Refusal::NoPassAllowed)
    );
    let two = halves.dot_within(&[0x3c00], &[], 1);
    assert_eq!(two, Err(Refusal::DifferentLengths));
    let stray = |place, list| Err(Refusal::StrayBit { place, list });
    assert_eq!(halves.sum_within(&[0, 0x1_0000], 1), stray(1, None));
    let (good, bad) = ([0x3c00, 0x3c00], [0x3c00, 0x1_0000]);
    assert_eq!(
        halves.dot_within(&good, &bad, 1),
        stray(1, Some(List::Right))
    );
    assert_eq!(halves.dot_within(&bad, &bad, 1), stray(1, Some(List::Left)));
    let uneven = |list| Err(Refusal::UnevenLength { list });
    let bytes = raw::bytes(&good);
    let of = Summand::Value;
    assert_eq!(halves.sum_bytes_within(of, &bytes[1..], 0), uneven(None));
    let lists = |left: &[u8], right: &[u8]| halves.dot_bytes_within(left, right, 0);
    assert_eq!(lists(&bytes[1..], &bytes[1..]), uneven(Some(List::Left)));
    assert_eq!(lists(&bytes, &bytes[1..]), uneven(Some(List::Right)));
    for format in [
        Format::EXTENDED,
        Format::new(Kind::Ieee, 1, 16),
        Format::BINARY16.with_bias(-FARTHEST - 1),
    ] {
        let none = Totals::of(format);
        assert_eq!(none.sum_within(&[], 1), Err(Refusal::NoSuchFormat));
        assert_eq!(none.sum_within(&[], 0), Err(Refusal::NoPassAllowed));
        assert_eq!(none.dot_within(&[1], &[], 1), Err(Refusal::NoSuchFormat));
    }
}

/// One element more than there may be: 6 comes after 16, 3, 4 and 5, and before 7.
#[test]
fn too_many_elements() {
    let mut values = vec![0u8; 8 * (LIMIT + 1)];
    values[8 + 2] = 1;
    let mut answer = [UNTOUCHED; 144];
    let mut sum = |f, c, summand, allowance| {
        raw::sum_within(f, None, c, summand, allowance, &values, &mut answer)
    };
    assert_eq!(sum([0, 5, 16], [0; 8], 0, 1), 6);
    assert_eq!(sum([0, 5, 16], [0; 8], 0, 0), 16);
    assert_eq!(sum([0, 1, 16], [0; 8], 0, 1), 3);
    assert_eq!(sum([0, 5, 16], [0; 8], 3, 1), 4);
    let mut dot =
        |right: &[u8]| raw::dot_within(BINARY64, None, [0; 8], 1, &values, right, &mut answer);
    assert_eq!((dot(&values), dot(&values[8..])), (6, 5));
    assert_eq!(answer, [UNTOUCHED; 144]);
}

/// A total toward negative: the settings act on a full answer alone.
#[test]
fn settings_act_on_full_answers() {
    let list = [
        power(1000),
        MINUS | power(1000),
        power(-60),
        MINUS | power(-60),
    ];
    for rounding in ROUNDINGS {
        let settings = Settings::new().with_rounding(rounding);
        let totals = Totals::of(Format::BINARY64).with_settings(settings);
        check(totals, Of::Sum(Summand::Value, &list));
        let is_down = rounding == Rounding::TowardNegative;
        let full = totals.sum_within(&list, 2).unwrap().full().unwrap();
        assert_eq!(full.result, if is_down { MINUS } else { 0 });
        let plain = Totals::of(Format::BINARY64).sum_within(&list, 1);
        assert_eq!(totals.sum_within(&list, 1), plain);
    }
}

/// What the examples print.
#[test]
fn a_list_while_scrolling() {
    let list: [f64; 6] = [412.25, 1e300, 398.10, -1e300, 1e-300, 405.50];
    for (allowance, line) in (1..).zip(include_str!("data/scroll.expected").lines()) {
        let printed = match sum_within(&list, allowance).unwrap() {
            Estimate::Full(record) => format!(
                "allowed {allowance}: {:016x} flags {:02x} passes {}: {:.2}",
                record.result.to_bits(),
                record.flags.bits(),
                record.passes,
                record.result
            ),
            Estimate::Unfinished(seen) => {
                let (lower, upper) = seen.bounds();
                let (lower, upper) = (lower.to_bits(), upper.to_bits());
                let figure = seen.figure();
                format!("allowed {allowance}: {lower:016x} to {upper:016x}: {figure:.2}")
            }
        };
        assert_eq!(printed, line);
    }
}
