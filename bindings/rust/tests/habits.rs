//! Two habits, of lists drawn at random in every kind and under every setting, with and without a
//! named bias. All values negated, or those of a dot's left list, and the directed modes exchanged
//! give the negated record; a square sum has the record of the dot product of the list with itself.
//! The theorems are `sum-mirror`, `dot-mirror` and `square-dot`.

mod common;
mod draw;

use common::ROUNDINGS;
use draw::Draw;
use fermuzhai::{
    Format, Kind, NanPropagation, Record, Refusal, Rounding, Settings, Side, Tininess, Totals,
};

const KINDS: [Kind; 4] = [Kind::Ieee, Kind::NoInf, Kind::Fnuz, Kind::Finite];
const WIDTHS: [(u8, u8); 7] = [
    (2, 4),
    (4, 8),
    (5, 16),
    (8, 32),
    (11, 64),
    (15, 64),
    (28, 64),
];
const BIASES: [i64; 5] = [0, -40, 2000, Format::FARTHEST_BIAS, -Format::FARTHEST_BIAS];
const RULES: [NanPropagation; 4] = [
    NanPropagation::SignalingFirst,
    NanPropagation::FirstOperand,
    NanPropagation::LargerSignificand,
    NanPropagation::DefaultNan,
];

#[derive(Clone, Copy, PartialEq)]
enum What {
    Zero,
    Number,
    Infinity,
    Nan,
}

fn sign(f: Format) -> u64 {
    1 << (f.width - 1)
}

fn fraction_bits(f: Format) -> u8 {
    f.width - f.exponent_bits - 1
}

/// The exponent field of all ones.
fn highest(f: Format) -> u64 {
    (1 << f.exponent_bits) - 1
}

fn what(f: Format, b: u64) -> What {
    let magnitude = b & (sign(f) - 1);
    let top = highest(f) << fraction_bits(f);
    match f.kind {
        Kind::Ieee if magnitude == top => What::Infinity,
        Kind::Ieee if magnitude > top => What::Nan,
        Kind::NoInf if magnitude == sign(f) - 1 => What::Nan,
        Kind::Fnuz if b == sign(f) => What::Nan,
        _ if magnitude == 0 => What::Zero,
        _ => What::Number,
    }
}

fn is_finite(f: Format, list: &[u64]) -> bool {
    list.iter()
        .all(|&b| matches!(what(f, b), What::Zero | What::Number))
}

/// Fnuz's zero is its own negative.
fn negative(f: Format, b: u64) -> u64 {
    if f.kind == Kind::Fnuz && b == 0 {
        0
    } else {
        b ^ sign(f)
    }
}

fn exchanged(mode: Rounding) -> Rounding {
    match mode {
        Rounding::TowardPositive => Rounding::TowardNegative,
        Rounding::TowardNegative => Rounding::TowardPositive,
        other => other,
    }
}

fn other_side(side: Side) -> Side {
    match side {
        Side::Below => Side::Above,
        Side::Above => Side::Below,
        other => other,
    }
}

fn any_format(draw: &mut Draw, kind: Kind) -> Format {
    let (e, w) = WIDTHS[draw.below(7) as usize];
    let format = Format::new(kind, e, w);
    match draw.below(10) {
        i @ 0..5 => format.with_bias(BIASES[i as usize]),
        _ => format,
    }
}

fn any_settings(draw: &mut Draw, f: Format, mode: Rounding) -> Settings {
    let mut seldom = |n: u64| draw.below(n) == 0;
    let settings = Settings::new()
        .with_rounding(mode)
        .with_default_nan_negative(seldom(2))
        .with_flush_to_zero(seldom(4))
        .with_denormals_are_zero(seldom(4))
        .with_saturate(seldom(4));
    let settings = if seldom(2) {
        settings.with_tininess(Tininess::AfterRounding)
    } else {
        settings
    };
    let digits = u64::from(f.digits());
    let precision = match draw.below(4) {
        0 => 1 + draw.below(digits),
        _ => 0,
    };
    settings
        .with_nan_propagation(RULES[draw.below(4) as usize])
        .with_precision(precision as u8)
}

/// Up to seven values near one exponent, some of them negatives of others; once in six the first is
/// any encoding at all, where the numbers of the format do not lie too far apart.
fn any_list(draw: &mut Draw, f: Format, count: usize) -> Vec<u64> {
    let near = match draw.below(4) {
        0 => draw.below(3).min(highest(f)),
        1 => highest(f) - draw.below(3).min(highest(f)),
        _ => draw.below(highest(f) + 1),
    };
    let mut list: Vec<u64> = vec![];
    for _ in 0..count {
        let field = (near + [0, 0, 1, 2, 60, 700][draw.below(6) as usize]).min(highest(f));
        let fraction = [0, 1, draw.next(), draw.next()][draw.below(4) as usize];
        let number = field << fraction_bits(f) | fraction & ((1 << fraction_bits(f)) - 1);
        let value = match (draw.below(6), list.last()) {
            (0, Some(&last)) => negative(f, last),
            (1, None) if f.exponent_bits < 16 => draw.next() >> (64 - f.width),
            (2, _) => 0,
            _ if draw.below(2) == 0 => negative(f, number),
            _ => number,
        };
        list.push(value);
    }
    list
}

/// What the mirrored call is to have, where that is told.
fn mirrored(f: Format, record: &Record<u64>) -> Option<(u64, u8, Side, u64)> {
    let told = matches!(what(f, record.result), What::Number | What::Infinity);
    told.then(|| {
        (
            negative(f, record.result),
            record.flags.bits(),
            other_side(record.side),
            record.passes,
        )
    })
}

fn of(record: &Record<u64>) -> (u64, u8, Side, u64) {
    (
        record.result,
        record.flags.bits(),
        record.side,
        record.passes,
    )
}

/// Runs a check of lists in every kind and mode. Of enough of them it must say that there was
/// something to see.
fn in_every_kind_and_mode(seed: u64, check: impl Fn(&mut Draw, Format, Settings) -> bool) {
    let mut draw = Draw(seed);
    for kind in KINDS {
        for mode in ROUNDINGS {
            let mut seen = 0;
            for _ in 0..1000 {
                let f = any_format(&mut draw, kind);
                let settings = any_settings(&mut draw, f, mode);
                seen += u64::from(check(&mut draw, f, settings));
            }
            assert!(seen > 100, "{kind:?}, {mode:?}: only {seen}");
        }
    }
}

#[test]
fn a_negated_list_has_the_negated_record() {
    in_every_kind_and_mode(11, |draw, f, c| {
        let count = draw.below(8) as usize;
        let list = any_list(draw, f, count);
        if !is_finite(f, &list) {
            return false;
        }
        let negatives: Vec<u64> = list.iter().map(|&b| negative(f, b)).collect();
        let totals = Totals::of(f).with_settings(c);
        let other = totals.with_settings(c.with_rounding(exchanged(c.rounding)));
        let record = totals.sum(&list).unwrap();
        let turned = other.sum(&negatives).unwrap();
        let wanted = mirrored(f, &record);
        assert!(
            wanted.is_none_or(|wanted| of(&turned) == wanted),
            "{f:?}, {c:?}, {list:x?}: {record:?}, {turned:?}"
        );
        wanted.is_some()
    });
}

#[test]
fn so_has_a_dot_of_which_the_left_list_is_negated() {
    in_every_kind_and_mode(12, |draw, f, c| {
        let count = 1 + draw.below(7) as usize;
        let (left, right) = (any_list(draw, f, count), any_list(draw, f, count));
        if !is_finite(f, &left) || !is_finite(f, &right) {
            return false;
        }
        let negatives: Vec<u64> = left.iter().map(|&b| negative(f, b)).collect();
        let totals = Totals::of(f).with_settings(c);
        let other = totals.with_settings(c.with_rounding(exchanged(c.rounding)));
        let record = totals.dot(&left, &right).unwrap();
        let turned = other.dot(&negatives, &right).unwrap();
        let wanted = mirrored(f, &record);
        assert!(
            wanted.is_none_or(|wanted| of(&turned) == wanted),
            "{f:?}, {c:?}, {left:x?}, {right:x?}: {record:?}, {turned:?}"
        );
        wanted.is_some()
    });
}

#[test]
fn a_square_sum_is_the_dot_of_the_list_with_itself() {
    in_every_kind_and_mode(13, |draw, f, c| {
        let count = draw.below(8) as usize;
        let list = any_list(draw, f, count);
        if list.iter().any(|&b| what(f, b) == What::Nan) {
            return false;
        }
        let totals = Totals::of(f).with_settings(c);
        assert_eq!(
            totals.square_sum(&list),
            totals.dot(&list, &list),
            "{f:?}, {c:?}, {list:x?}"
        );
        true
    });
}

/// Refused alike, with one place; only the list's name is that of a dot.
#[test]
fn refused_squares() {
    let half = Totals::of(Format::BINARY16);
    let stray = [0x3c00, 0x1_0000, 0x2_0000];
    let place = |refusal| match refusal {
        Err(Refusal::StrayBit { place, .. }) => place,
        other => panic!("{other:?}"),
    };
    assert_eq!(place(half.square_sum(&stray)), 1);
    assert_eq!(place(half.dot(&stray, &stray)), 1);
    let twelve = half.with_settings(Settings::new().with_precision(12));
    assert_eq!(twelve.square_sum(&stray), twelve.dot(&stray, &stray));
    let none = Totals::of(Format::new(Kind::Ieee, 29, 64));
    assert_eq!(none.square_sum(&[1]), Err(Refusal::NoSuchFormat));
    assert_eq!(none.dot(&[1], &[1]), Err(Refusal::NoSuchFormat));
}

/// Of what nothing is said: a zero, a NaN of Fnuz, and a list with a NaN behind an infinity.
#[test]
fn what_is_not_told() {
    let half = Totals::of(Format::BINARY16);
    assert_eq!(half.sum(&[0x3c00, 0xbc00]).unwrap().result, 0);
    assert_eq!(half.sum(&[0xbc00, 0x3c00]).unwrap().result, 0);
    let fnuz = Totals::of(Format::E4M3_FNUZ);
    assert_eq!(fnuz.sum(&[0x7f, 0x7f]).unwrap().result, 0x80);
    assert_eq!(fnuz.sum(&[0xff, 0xff]).unwrap().result, 0x80);
    let list = [0xfc00, 0x7e00];
    assert_eq!(half.square_sum(&list).unwrap().result, 0x7c00);
    assert_eq!(half.dot(&list, &list).unwrap().result, 0x7e00);
}
