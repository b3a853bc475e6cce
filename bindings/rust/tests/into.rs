//! One total in several formats, through `raw`, `Totals` and the free function. The expectations
//! are rows worked out by hand, and what exact sums, added and rounded digit by digit, come to; of
//! the passes alone, those of the plain sum.

mod common;
mod draw;
mod exact;
mod numbers;

use common::ROUNDINGS;
use draw::Draw;
use exact::{greatest, Exact};
use fermuzhai::{
    raw, sum, sum_into, Format, Kind, Record, Refusal, Rounding, Settings, Side, Target, Tininess,
    Totals,
};
use numbers::least;

const LIMIT: usize = 1 << 28;
const FARTHEST: i64 = Format::FARTHEST_BIAS;
const UNTOUCHED: u8 = 0xa5;
const BINARY16: raw::Format = [0, 5, 16];

const EQUAL: u8 = Side::Equal as u8;
const BELOW: u8 = Side::Below as u8;
const ABOVE: u8 = Side::Above as u8;
const NO_COMPARISON: u8 = Side::NoComparison as u8;

/// The thirteen numbers of a target.
type Numbers = [u64; 13];

/// The refusal, plus 256 times its place; the result; flags, side and the zeros beside them; the
/// passes.
type Slot = [u64; 4];

/// 2^n as an encoding of binary64, for a normal number.
fn power(n: i64) -> u64 {
    ((n + 1023) as u64) << 52
}

const MINUS: u64 = 1 << 63;

fn plain(format: Format) -> Target {
    Target::new(format)
}

fn under(format: Format, rounding: Rounding) -> Target {
    plain(format).with_settings(Settings::new().with_rounding(rounding))
}

fn accepted(result: u64, flags: u8, passes: u64, side: u8) -> Slot {
    [0, result, u64::from(flags) | u64::from(side) << 16, passes]
}

fn refused(code: u64) -> Slot {
    [code, 0, 0, 0]
}

fn words(bytes: &[u8]) -> Vec<u64> {
    let each = bytes.chunks_exact(8);
    each.map(|word| u64::from_le_bytes(word.try_into().unwrap()))
        .collect()
}

/// One call of the entry, which writes 96 bytes and none beyond.
fn enter(
    f: raw::Format,
    bias: Option<i64>,
    denormals_are_zero: u64,
    targets: &[Numbers; 3],
    values: &[u64],
) -> [Slot; 3] {
    let (targets, values) = (raw::bytes(targets.as_flattened()), raw::bytes(values));
    let mut slots = None;
    // what was in the buffer before has no part in the answer
    for filling in [UNTOUCHED, !UNTOUCHED] {
        let mut answer = [filling; 96 + 24];
        let code = raw::sum_into(f, bias, denormals_are_zero, &targets, &values, &mut answer);
        assert_eq!(code, 0);
        assert_eq!(answer[96..], [filling; 24], "beyond the answer");
        let words: [u64; 12] = words(&answer[..96]).try_into().unwrap();
        let given: [Slot; 3] = [0, 4, 8].map(|at| words[at..at + 4].try_into().unwrap());
        assert_eq!(*slots.get_or_insert(given), given);
    }
    slots.unwrap()
}

/// What the entry leaves for a record.
fn slot(record: Result<Record<u64>, Refusal>) -> Slot {
    match record {
        Ok(of) => accepted(of.result, of.flags.bits(), of.passes, of.side as u8),
        Err(refusal) => refused(code(refusal)),
    }
}

fn code(refusal: Refusal) -> u64 {
    match refusal {
        Refusal::NoSuchFormat => 3,
        Refusal::PrecisionOutOfRange { .. } => 4,
        Refusal::TooManyElements => 6,
        Refusal::StrayBit { place, .. } => 7 + 256 * place as u64,
        Refusal::TargetOutOfReach => 17,
        _ => panic!("not a refusal of a target: {refusal:?}"),
    }
}

/// Both ways to three targets: what the entry leaves, and the records over it.
fn check_slots(totals: Totals<u64>, values: &[u64], targets: [Target; 3], wanted: [Slot; 3]) {
    let f = totals.format();
    let denormals_are_zero = totals.settings().denormals_are_zero;
    let given = enter(
        f.into(),
        f.named_bias,
        denormals_are_zero.into(),
        &targets.map(Numbers::from),
        values,
    );
    assert_eq!(
        given, wanted,
        "{f:?} {denormals_are_zero} {values:x?} into {targets:?}"
    );
    let records = totals.sum_into(values, &targets);
    assert_eq!(records.len(), 3);
    for (record, wanted) in records.into_iter().zip(wanted) {
        assert_eq!(
            slot(record),
            wanted,
            "{f:?} {denormals_are_zero} {values:x?} into {targets:?}"
        );
    }
}

fn reading(format: Format, denormals_are_zero: bool) -> Totals<u64> {
    let settings = Settings::new().with_denormals_are_zero(denormals_are_zero);
    Totals::of(format).with_settings(settings)
}

fn is_format(f: Format) -> bool {
    f.kind != Kind::X87
        && (2..=28).contains(&f.exponent_bits)
        && (f.exponent_bits + 2..=64).contains(&f.width)
        && f.named_bias
            .is_none_or(|bias| (-FARTHEST..=FARTHEST).contains(&bias))
}

/// The refusal of a target, the first that holds.
fn refusal(list: Format, values: &[u64], target: Target) -> Option<Refusal> {
    let digits = target.format.digits();
    if !is_format(list) || !is_format(target.format) {
        return Some(Refusal::NoSuchFormat);
    }
    if let Some(precision) = target.settings.precision.filter(|q| q.get() > digits) {
        let precision = precision.get();
        return Some(Refusal::PrecisionOutOfRange { precision, digits });
    }
    let is_stray = |&value: &u64| list.width < 64 && value >> list.width != 0;
    if let Some(place) = values.iter().position(is_stray) {
        return Some(Refusal::StrayBit { place, list: None });
    }
    let is_special = |&value: &u64| numbers::number(list, value).is_none();
    let is_out = digits > list.digits() || values.iter().any(is_special);
    is_out.then_some(Refusal::TargetOutOfReach)
}

/// The slot of a target by exact arithmetic, with the passes of the plain sum.
fn wanted(totals: Totals<u64>, values: &[u64], exact: Option<&Exact>, target: Target) -> Slot {
    if let Some(refusal) = refusal(totals.format(), values, target) {
        return refused(code(refusal));
    }
    let exact = exact.unwrap();
    let (result, flags, side) = exact.in_target(target);
    let passes = totals.sum(values).unwrap().passes;
    assert_eq!(passes == 0, !exact.has_terms());
    accepted(result, flags, passes, side as u8)
}

/// Three targets of a list are what exact arithmetic makes of them.
fn check(totals: Totals<u64>, values: &[u64], targets: [Target; 3]) {
    let denormals_are_zero = totals.settings().denormals_are_zero;
    let is_read = targets
        .iter()
        .any(|&target| refusal(totals.format(), values, target).is_none());
    let exact = is_read
        .then(|| Exact::of(totals.format(), denormals_are_zero, values))
        .flatten();
    let each = targets.map(|target| wanted(totals, values, exact.as_ref(), target));
    check_slots(totals, values, targets, each);
}

#[test]
fn a_target_is_thirteen_numbers() {
    let settings = Settings::new()
        .with_rounding(Rounding::ToOdd)
        .with_tininess(Tininess::AfterRounding)
        .with_nan_propagation(fermuzhai::NanPropagation::LargerSignificand)
        .with_flush_to_zero(true)
        .with_saturate(true)
        .with_precision(9);
    let format = Format::new(Kind::Finite, 6, 20);
    let target = plain(format.with_bias(-7)).with_settings(settings);
    let minus_seven = u64::MAX - 6;
    assert_eq!(
        Numbers::from(target),
        [3, 6, 20, 1, minus_seven, 7, 1, 2, 0, 1, 0, 1, 9]
    );
    let settings = Settings::new()
        .with_default_nan_negative(true)
        .with_denormals_are_zero(true);
    assert_eq!(
        Numbers::from(plain(format).with_settings(settings)),
        [3, 6, 20, 0, 0, 0, 0, 0, 1, 0, 1, 0, 0]
    );
    assert_eq!(
        Target::from(format),
        Target::new(format).with_settings(Settings::new())
    );
}

/// Rows worked out by hand: a list, and a target with its slot.
#[test]
fn rows() {
    use Rounding::{TowardNegative, TowardPositive, TowardZero};
    let b64 = reading(Format::BINARY64, false);
    let (half, single, double) = (Format::BINARY16, Format::BINARY32, Format::BINARY64);
    let (one, tie, tiny) = (power(0), power(-11), power(-70));
    let max = 0x7fef_ffff_ffff_ffff;
    let short = Format::new(Kind::Ieee, 2, 10);
    let wide = Format::new(Kind::Ieee, 13, 20);
    let e4m3 = Format::new(Kind::Ieee, 4, 8);
    let fnuz = Format::E4M3_FNUZ;
    #[rustfmt::skip]
    let rows: [(Totals<u64>, &[u64], Target, Slot); 48] = [
        // a little above a tie of binary16, on it and a little below; and beside the tie after 1 +
        // 2^−10
        (b64, &[one, tie, tiny], plain(half), accepted(0x3c01, 0x50, 1, ABOVE)),
        (b64, &[one, tie, tiny], plain(single), accepted(0x3f80_1000, 0x10, 1, BELOW)),
        (b64, &[one, tie, tiny], plain(double), accepted(0x3ff0_0200_0000_0000, 0x10, 1, BELOW)),
        (b64, &[one, tie], plain(half), accepted(0x3c00, 0x10, 1, BELOW)),
        (b64, &[one, tie], plain(single), accepted(0x3f80_1000, 0, 1, EQUAL)),
        (b64, &[one, tie, MINUS | tiny], plain(half), accepted(0x3c00, 0x10, 1, BELOW)),
        (b64, &[one, power(-10), tie], plain(half), accepted(0x3c02, 0x50, 1, ABOVE)),
        (b64, &[one, power(-10), tie, MINUS | tiny], plain(half), accepted(0x3c01, 0x10, 1, BELOW)),
        (b64, &[MINUS | one, MINUS | tie, MINUS | tiny], plain(half), accepted(0xbc01, 0x50, 1, BELOW)),
        // a second pass decides: the tie is a boundary of 53 digits too
        (b64, &[one, tie, power(-1000)], plain(half), accepted(0x3c01, 0x50, 2, ABOVE)),
        (b64, &[one, tie, MINUS | power(-1000)], plain(half), accepted(0x3c00, 0x10, 2, BELOW)),
        (b64, &[one, tie, power(-1000)], under(half, TowardZero), accepted(0x3c00, 0x10, 2, BELOW)),
        (b64, &[one, power(-53), power(-1000)], plain(double), accepted(0x3ff0_0000_0000_0001, 0x50, 2, ABOVE)),
        (b64, &[one, power(-53), power(-1000)], plain(single), accepted(0x3f80_0000, 0x10, 2, BELOW)),
        (b64, &[one, power(-53), power(-1000)], under(single, TowardPositive), accepted(0x3f80_0001, 0x50, 2, ABOVE)),
        (b64, &[one, power(-1000)], under(half, TowardPositive), accepted(0x3c01, 0x50, 2, ABOVE)),
        (b64, &[one, MINUS | power(-1000)], under(half, TowardNegative), accepted(0x3bff, 0x10, 2, BELOW)),
        (b64, &[power(1000), one, MINUS | power(1000)], plain(half), accepted(0x3c00, 0, 2, EQUAL)),
        // below the least normal number nothing is rounded to 11 digits first
        (b64, &[power(-25), power(-40)], plain(half), accepted(0x0001, 0x78, 1, ABOVE)),
        (b64, &[power(-25)], plain(half), accepted(0, 0x38, 1, BELOW)),
        (b64, &[MINUS | power(-25)], plain(half), accepted(0x8000, 0x38, 1, ABOVE)),
        (b64, &[power(-24)], plain(half), accepted(1, 0x20, 1, EQUAL)),
        // too large, by kind
        (b64, &[max], plain(single), accepted(0x7f80_0000, 0x54, 1, NO_COMPARISON)),
        (b64, &[max], under(single, TowardZero), accepted(0x7f7f_ffff, 0x14, 1, BELOW)),
        (b64, &[max | MINUS], under(single, TowardPositive), accepted(0xff7f_ffff, 0x14, 1, ABOVE)),
        (b64, &[max], plain(Format::E4M3), accepted(0x7f, 0x14, 1, NO_COMPARISON)),
        (b64, &[max], plain(fnuz), accepted(0x80, 0x14, 1, NO_COMPARISON)),
        (b64, &[max], plain(Format::E2M1), accepted(0x7, 0x14, 1, BELOW)),
        (b64, &[max | MINUS], plain(Format::E2M1), accepted(0xf, 0x14, 1, ABOVE)),
        // too large for the list's format, and not for a wider one of fewer digits: 2^1024
        (b64, &[max, power(971)], plain(Format::new(Kind::Ieee, 15, 32)), accepted(0x43ff << 16, 0, 1, EQUAL)),
        (b64, &[max, power(971)], plain(double), accepted(0x7ff0 << 48, 0x54, 1, NO_COMPARISON)),
        // a subnormal value, normal in a target that reaches farther down
        (reading(short, false), &[1], plain(wide), accepted(0x3fe00, 0x80, 1, EQUAL)),
        (reading(short, true), &[1], plain(wide), accepted(0, 0x80, 0, EQUAL)),
        (reading(short, true), &[0x201], plain(wide), accepted(0x80000, 0x80, 0, EQUAL)),
        (reading(Format::BINARY64, false), &[1], plain(half), accepted(0, 0xb8, 1, BELOW)),
        (reading(Format::BINARY64, true), &[1], plain(half), accepted(0, 0x80, 0, EQUAL)),
        (reading(Format::BINARY64, true), &[1, one], plain(half), accepted(0x3c00, 0x80, 1, EQUAL)),
        // a zero of its sign, in a list of a format that has none
        (reading(fnuz, true), &[0x81], plain(e4m3), accepted(0x80, 0x80, 0, EQUAL)),
        (reading(fnuz, true), &[0x81], plain(fnuz), accepted(0, 0x80, 0, EQUAL)),
        (reading(fnuz, true), &[0x81, 0], plain(e4m3), accepted(0, 0x80, 0, EQUAL)),
        (reading(fnuz, true), &[0x81, 0], under(e4m3, TowardNegative), accepted(0x80, 0x80, 0, EQUAL)),
        // refused
        (b64, &[one], plain(Format::new(Kind::Ieee, 10, 64)), refused(17)),
        (b64, &[one, 0x7ff0 << 48], plain(half), refused(17)),
        (b64, &[0xffff << 48, one], plain(half), refused(17)),
        (reading(half, false), &[0x3c00], plain(single), refused(17)),
        (reading(half, false), &[0x1_0000, 0x7c00], plain(single), refused(7)),
        (reading(half, false), &[0x7c00, 0x3c00, 0x1_0000], plain(half), refused(7 + 256 * 2)),
        (reading(half, false), &[0x3c00], plain(half).with_settings(Settings::new().with_precision(12)), refused(4)),
    ];
    for (totals, values, target, slot) in rows {
        check_slots(totals, values, [target; 3], [slot; 3]);
        // and what is worked out is the same
        check(totals, values, [target; 3]);
    }
    // a list of binary16 into binary16, binary32 and binary16: the second alone is refused
    let two = accepted(0x4000, 0, 1, EQUAL);
    check_slots(
        Totals::of(half),
        &[0x3c00, 0x3c00],
        [half, single, half].map(plain),
        [two, refused(17), two],
    );
}

/// Targets of every kind: several formats, settings and biases, and refused ones.
fn pool() -> Vec<Target> {
    let saturated = Settings::new().with_saturate(true);
    let odd = Settings::new().with_rounding(Rounding::ToOdd);
    vec![
        plain(Format::BINARY16),
        under(Format::BINARY32, Rounding::TowardPositive),
        plain(Format::new(Kind::Ieee, 10, 64)),
        plain(Format::E4M3).with_settings(saturated),
        plain(Format::E5M2_FNUZ.with_bias(-20)),
        plain(Format::new(Kind::Finite, 29, 40)),
        plain(Format::E3M2).with_settings(odd.with_precision(2)),
        plain(Format::BINARY64),
        plain(Format::E2M1).with_settings(Settings::new().with_precision(3)),
    ]
}

/// Lists of binary64 of each sort: sums, ties, zeros, one that cancels, subnormal values, a NaN.
fn lists() -> Vec<Vec<u64>> {
    vec![
        vec![power(0), power(-11), power(-70)],
        vec![power(0), power(-11), MINUS | power(-1000)],
        vec![MINUS | power(20), 0x3fb9_9999_9999_999a],
        vec![power(5), MINUS | power(5), MINUS],
        vec![],
        vec![MINUS],
        vec![MINUS, 0],
        vec![1, 2, MINUS | 7],
        vec![power(1000), power(0), MINUS | power(1000), power(-12)],
        vec![power(0), 0x7ff8 << 48],
        vec![0x7ff0 << 48],
    ]
}

/// Each target has what it has alone, wherever it stands, and whatever stands beside it.
#[test]
fn targets_in_every_order() {
    let pool = pool();
    for values in lists() {
        for denormals_are_zero in [false, true] {
            let totals = reading(Format::BINARY64, denormals_are_zero);
            let exact = Exact::of(Format::BINARY64, denormals_are_zero, &values);
            let slots: Vec<Slot> = pool
                .iter()
                .map(|&target| wanted(totals, &values, exact.as_ref(), target))
                .collect();
            for i in 0..pool.len() {
                for j in 0..pool.len() {
                    for k in 0..pool.len() {
                        check_slots(
                            totals,
                            &values,
                            [i, j, k].map(|at| pool[at]),
                            [i, j, k].map(|at| slots[at]),
                        );
                    }
                }
            }
        }
    }
}

/// Any number of targets: none, and groups of three that are full or not.
#[test]
fn as_many_targets_as_are_asked_for() {
    let pool = pool();
    for values in lists() {
        let totals = Totals::of(Format::BINARY64);
        let exact = Exact::of(Format::BINARY64, false, &values);
        for count in [0, 1, 2, 3, 4, 5, 6, 7, 9] {
            for start in 0..=pool.len() - count {
                let targets = &pool[start..start + count];
                let records = totals.sum_into(&values, targets);
                assert_eq!(records.len(), count);
                for (record, &target) in records.iter().zip(targets) {
                    assert_eq!(totals.sum_into(&values, &[target]), [*record]);
                    let wanted = wanted(totals, &values, exact.as_ref(), target);
                    assert_eq!(slot(*record), wanted);
                }
                // as floats, by either function
                let floats: Vec<f64> = values.iter().map(|&x| f64::from_bits(x)).collect();
                assert_eq!(sum_into(&floats, targets), records);
                assert_eq!(Totals::<f64>::new().sum_into(&floats, targets), records);
            }
        }
    }
}

/// Every setting of a target, about its least and its greatest number and its ties, of either sign.
#[test]
fn every_setting() {
    let formats = [
        Format::BINARY16,
        Format::E5M2,
        Format::E4M3,
        Format::E4M3_FNUZ,
        Format::E2M3,
        Format::E2M1,
        Format::new(Kind::NoInf, 3, 5).with_bias(70),
        Format::new(Kind::Ieee, 2, 4).with_bias(-90),
    ];
    let totals = Totals::of(Format::BINARY64);
    for f in formats {
        let (low, high, digits) = (least(f), greatest(f), i64::from(f.digits()));
        // the first number is on the grid, and the second a half or a quarter of its unit
        let lists = [
            vec![power(low - digits)],
            vec![power(low - digits + 1)],
            vec![power(low - digits + 1), power(low - digits)],
            vec![power(low), MINUS | power(low - digits)],
            vec![power(low), MINUS | power(low - digits - 1)],
            vec![power(low), MINUS | power(low - digits - 2)],
            vec![power(low), power(low - digits)],
            vec![power(high), power(high - digits)],
            vec![power(high), power(high - 1), power(high - 1 - digits)],
            vec![power(high + 1), MINUS | power(high - digits + 1)],
            vec![power(high + 1), MINUS | power(high - digits)],
            vec![power(high + 1), MINUS | power(high - digits + 2)],
            vec![
                power(high + 1),
                MINUS | power(high - digits + 2),
                power(high - digits),
            ],
            vec![power(high + 2)],
        ];
        for mut list in lists {
            let lowest = *list.iter().min_by_key(|&&x| x & !MINUS).unwrap() & !MINUS;
            let beside = lowest - (100 << 52);
            for more in [None, Some(beside), Some(MINUS | beside)] {
                list.extend(more);
                for sign in [0, MINUS] {
                    let values: Vec<u64> = list.iter().map(|x| x ^ sign).collect();
                    let exact = Exact::of(Format::BINARY64, false, &values);
                    let mut asked = Vec::new();
                    for (i, rounding) in ROUNDINGS.into_iter().enumerate() {
                        for switches in 0..8 {
                            let precision =
                                [0, 1, 2, f.digits() - 1, f.digits()][(i + switches) % 5];
                            let settings = Settings::new()
                                .with_rounding(rounding)
                                .with_tininess(if switches & 1 == 0 {
                                    Tininess::BeforeRounding
                                } else {
                                    Tininess::AfterRounding
                                })
                                .with_flush_to_zero(switches & 2 != 0)
                                .with_saturate(switches & 4 != 0)
                                // of no effect
                                .with_denormals_are_zero(switches & 1 != 0)
                                .with_default_nan_negative(switches & 2 != 0);
                            asked.push(plain(f).with_settings(settings));
                            asked.push(plain(f).with_settings(settings.with_precision(precision)));
                        }
                    }
                    let records = totals.sum_into(&values, &asked);
                    for (record, target) in records.into_iter().zip(asked) {
                        let wanted = wanted(totals, &values, exact.as_ref(), target);
                        assert_eq!(slot(record), wanted, "{values:x?} into {target:?}");
                    }
                }
                list.truncate(list.len() - usize::from(more.is_some()));
            }
        }
    }
}

/// Values, denormals-are-zero, the sign to the nearest and toward negative, flags and passes.
type ZeroRow<'a> = (&'a [u64], bool, [u64; 2], u8, u64);

/// The sign of a zero: the listed zeros' without terms, the target's rounding where terms cancel.
#[test]
fn zeros() {
    let (x, y) = (power(3), MINUS | power(3));
    #[rustfmt::skip]
    let rows: [ZeroRow<'_>; 12] = [
        // without terms, in this sign to the nearest and toward negative
        (&[], false, [0, 0], 0, 0),
        (&[0, 0], false, [0, 0], 0, 0),
        (&[MINUS, MINUS, MINUS], false, [1, 1], 0, 0),
        (&[MINUS, 0], false, [0, 1], 0, 0),
        (&[1, 1], true, [0, 0], 0x80, 0),
        (&[MINUS | 1], true, [1, 1], 0x80, 0),
        (&[MINUS | 1, 1], true, [0, 1], 0x80, 0),
        // terms that cancel, whichever zeros stand among them
        (&[x, y], false, [0, 1], 0, 1),
        (&[x, y, MINUS], false, [0, 1], 0, 1),
        (&[x, y, 0], false, [0, 1], 0, 1),
        (&[MINUS | 1, 1], false, [0, 1], 0x80, 1),
        (&[x, MINUS | 1, y], true, [0, 1], 0x80, 1),
    ];
    for (values, denormals_are_zero, signs, flags, passes) in rows {
        let totals = reading(Format::BINARY64, denormals_are_zero);
        for rounding in ROUNDINGS {
            let sign = signs[usize::from(rounding == Rounding::TowardNegative)];
            let flush = Settings::new()
                .with_rounding(rounding)
                .with_flush_to_zero(true);
            let targets = [
                under(Format::BINARY64, rounding),
                plain(Format::E4M3).with_settings(flush),
                // which has no −0
                under(Format::E5M2_FNUZ, rounding),
            ];
            let results = [sign << 63, sign << 7, 0];
            let slots = results.map(|result| accepted(result, flags, passes, EQUAL));
            check_slots(totals, values, targets, slots);
            check(totals, values, targets);
        }
        // each target by its own rounding
        let targets = [
            under(Format::BINARY16, Rounding::TowardNegative),
            plain(Format::BINARY16),
            under(Format::BINARY16, Rounding::TowardPositive),
        ];
        let signs = [signs[1], signs[0], signs[0]];
        let slots = signs.map(|sign| accepted(sign << 15, flags, passes, EQUAL));
        check_slots(totals, values, targets, slots);
    }
}

/// A condition of a refused target: its number, whether it is the target's own, and what makes it
/// hold.
struct Condition {
    code: u64,
    is_own: bool,
    hold: fn(&mut Asked, &mut Numbers),
}

/// What a call is asked, but for the targets.
struct Asked {
    f: raw::Format,
    bias: Option<i64>,
    denormals_are_zero: u64,
    values: Vec<u64>,
}

const fn of_list(code: u64, hold: fn(&mut Asked, &mut Numbers)) -> Condition {
    Condition {
        code,
        is_own: false,
        hold,
    }
}

const fn of_target(code: u64, hold: fn(&mut Asked, &mut Numbers)) -> Condition {
    Condition {
        code,
        is_own: true,
        hold,
    }
}

#[rustfmt::skip]
const CONDITIONS: [Condition; 33] = [
    of_list(3, |asked, _| asked.f[0] = 4),
    of_list(3, |asked, _| asked.f = [4, 15, 80]),
    of_list(3, |asked, _| asked.f[1] = 1),
    of_list(3, |asked, _| asked.f = [0, 29, 64]),
    of_list(3, |asked, _| asked.f[2] = 6),
    of_list(3, |asked, _| asked.f[2] = 65),
    of_list(3, |asked, _| asked.bias = Some(FARTHEST + 1)),
    of_list(3, |asked, _| asked.bias = Some(-FARTHEST - 1)),
    of_target(3, |_, target| target[0] = 4),
    of_target(3, |_, target| target[1] = 1),
    of_target(3, |_, target| target[1] = 29),
    of_target(3, |_, target| target[2] = 6),
    of_target(3, |_, target| target[2] = 65),
    of_target(3, |_, target| (target[3], target[4]) = (1, FARTHEST as u64 + 1)),
    of_target(3, |_, target| (target[3], target[4]) = (1, (-FARTHEST - 1) as u64)),
    of_target(3, |_, target| (target[3], target[4]) = (1, 1 << 63)),
    of_target(3, |_, target| (target[3], target[4]) = (0, 15)),
    of_target(3, |_, target| (target[3], target[4]) = (2, 15)),
    of_target(3, |_, target| (target[3], target[4]) = (1 << 32, 0)),
    of_list(4, |asked, _| asked.denormals_are_zero = 2),
    of_list(4, |asked, _| asked.denormals_are_zero = u64::MAX),
    of_target(4, |_, target| target[5] = 8),
    of_target(4, |_, target| target[6] = 2),
    of_target(4, |_, target| target[7] = 4),
    of_target(4, |_, target| target[8] = 2),
    of_target(4, |_, target| target[9] = 2),
    of_target(4, |_, target| target[10] = 2),
    of_target(4, |_, target| target[11] = 2),
    of_target(4, |_, target| target[12] = 63),
    of_list(7 + 256 * 2, |asked, _| asked.values[2] = 0x1_0000),
    of_target(17, |_, target| target[2] = 17),
    of_list(17, |asked, _| asked.values[3] = 0x7c00),
    of_list(17, |asked, _| asked.values[0] = 0xfc01),
];

/// Every condition by itself and every two at once, of one, of two and of all three targets: the
/// first in the order 3, 4, 7, 17 is told, and a target of which none holds has its record.
#[test]
fn refusals_of_each_target() {
    // forty bytes are whole values of eight and of ten
    let (half, values) = (Numbers::from(plain(Format::BINARY16)), [0x3c00; 5]);
    let five = accepted(0x4500, 0, 1, EQUAL);
    for (i, first) in CONDITIONS.iter().enumerate() {
        for second in &CONDITIONS[i..] {
            // which targets the first holds of, and which the second
            for held in 0..64 {
                let mut asked = Asked {
                    f: BINARY16,
                    bias: None,
                    denormals_are_zero: 0,
                    values: values.to_vec(),
                };
                let mut targets = [half; 3];
                let mut slots = [five; 3];
                for (condition, held) in [(second, held >> 3), (first, held & 7)] {
                    for at in 0..3 {
                        if condition.is_own && held >> at & 1 == 0 {
                            continue;
                        }
                        (condition.hold)(&mut asked, &mut targets[at]);
                        if slots[at][0] == 0 || slots[at][0] % 256 > condition.code % 256 {
                            slots[at] = refused(condition.code);
                        }
                    }
                }
                let f = asked.f;
                let given = enter(
                    f,
                    asked.bias,
                    asked.denormals_are_zero,
                    &targets,
                    &asked.values,
                );
                assert_eq!(given, slots, "{f:?} {:?} {targets:?}", asked.values);
            }
        }
    }
}

/// One element more than there may be: 6 comes after 3 and 4, and before 7 and 17. Zeros that
/// nobody wrote take no memory.
#[test]
fn too_many_elements() {
    let mut values = vec![0u8; 8 * (LIMIT + 1)];
    // a stray bit in the second, which is not looked at
    values[8 + 2] = 1;
    let half = Numbers::from(plain(Format::BINARY16));
    let [mut no_format, mut no_setting, mut wide] = [half; 3];
    (no_format[0], no_setting[5], wide[2]) = (4, 8, 32);
    let call = |denormals_are_zero, targets: [Numbers; 3]| {
        let mut answer = [UNTOUCHED; 97];
        let targets = raw::bytes(targets.as_flattened());
        let code = raw::sum_into(
            BINARY16,
            None,
            denormals_are_zero,
            &targets,
            &values,
            &mut answer,
        );
        assert_eq!((code, answer[96]), (0, UNTOUCHED));
        let words = words(&answer[..96]);
        [0, 4, 8].map(|at| <Slot>::try_from(&words[at..at + 4]).unwrap())
    };
    assert_eq!(call(0, [half, wide, half]), [refused(6); 3]);
    assert_eq!(
        call(0, [no_format, half, no_setting]),
        [3, 6, 4].map(refused)
    );
    assert_eq!(
        call(2, [half, no_format, no_setting]),
        [4, 3, 4].map(refused)
    );

    let floats = vec![0f64; LIMIT + 1];
    let targets = [
        plain(Format::new(Kind::Ieee, 2, 64)),
        plain(Format::new(Kind::Ieee, 1, 64)),
        plain(Format::BINARY16),
        plain(Format::BINARY16).with_settings(Settings::new().with_precision(12)),
    ];
    assert_eq!(
        sum_into(&floats, &targets),
        [
            Err(Refusal::TooManyElements),
            Err(Refusal::NoSuchFormat),
            Err(Refusal::TooManyElements),
            Err(Refusal::PrecisionOutOfRange {
                precision: 12,
                digits: 11
            }),
        ]
    );
}

/// Lengths that are not: 1 comes before 2, and both before any refusal of a target. Nothing is
/// written.
#[test]
fn lengths_in_bytes() {
    let good = raw::bytes([Numbers::from(plain(Format::BINARY16)); 3].as_flattened());
    let targets = [good.as_slice(), &[0; 8]].concat();
    // a stray bit, and a NaN
    let values = raw::bytes(&[0x3c00, 0x1_0000, 0x7e00]);
    for length in [0, 1, 8, 104, 208, 311, 312, 313, 320] {
        for size in [0, 1, 7, 8, 9, 10, 15, 16, 20, 23, 24] {
            for room in [0, 1, 24, 32, 64, 95, 96, 97, 120] {
                for f in [BINARY16, [4, 5, 16], [4, 15, 80]] {
                    let mut answer = [UNTOUCHED; 120];
                    let code = raw::sum_into(
                        f,
                        None,
                        0,
                        &targets[..length],
                        &values[..size],
                        &mut answer[..room],
                    );
                    let value = if f[0] == 4 { 10 } else { 8 };
                    let wanted = if length != 312 || size % value != 0 {
                        1
                    } else if room < 96 {
                        2
                    } else {
                        0
                    };
                    assert_eq!(code, wanted, "{f:?} {length} {size} {room}");
                    let written = if wanted == 0 { 96 } else { 0 };
                    assert!(answer[written..].iter().all(|&byte| byte == UNTOUCHED));
                    if wanted != 0 {
                        continue;
                    }
                    let slot = match (f[0], size) {
                        (4, _) => refused(3),
                        (_, 0) => accepted(0, 0, 0, EQUAL),
                        (_, 8) => accepted(0x3c00, 0, 1, EQUAL),
                        _ => refused(7 + 256),
                    };
                    assert_eq!(words(&answer[..96]), [slot; 3].as_flattened());
                }
            }
        }
    }
}

/// Formats without encodings in words, of the list or of a target.
#[test]
fn no_eighty_bits() {
    let extended = plain(Format::EXTENDED);
    let records = Totals::of(Format::BINARY64).sum_into(&[power(0)], &[extended, pool()[0]]);
    assert_eq!(records[0], Err(Refusal::NoSuchFormat));
    assert_eq!(slot(records[1]), accepted(0x3c00, 0, 1, EQUAL));
    for values in [&[][..], &[1], &[1, 2, 3, 4], &[1, 2, 3, 4, 5]] {
        let records = Totals::of(Format::EXTENDED).sum_into(values, &pool());
        assert_eq!(records, vec![Err(Refusal::NoSuchFormat); pool().len()]);
    }
}

/// By way of binary64, or of another target, a sum that lies beside a tie comes to lie on it.
#[test]
fn not_by_way_of_another_format() {
    let mut others = 0;
    for (digits, target) in [
        (11, Format::BINARY16),
        (24, Format::BINARY32),
        (8, Format::BFLOAT16),
        (3, Format::E5M2),
        (4, Format::E4M3),
    ] {
        for number in 0..4i64 {
            // 1 and some units, and half of one; a little more, a little less
            let unit = power(1 - digits);
            let base = f64::from_bits(power(0)) + number as f64 * f64::from_bits(unit);
            for beside in [
                power(-70),
                MINUS | power(-70),
                power(-1000),
                MINUS | power(-1000),
            ] {
                let list = [base.to_bits(), power(-digits), beside];
                let totals = Totals::of(Format::BINARY64);
                let targets = [target, Format::BINARY64, Format::BINARY32].map(plain);
                check(totals, &list, targets);
                let once = totals.sum_into(&list, &targets);
                let twice = |by: Result<Record<u64>, Refusal>, f| {
                    Totals::of(f).sum_into(&[by.unwrap().result], &targets)[0].unwrap()
                };
                let result = once[0].unwrap().result;
                let is_up = beside & MINUS == 0;
                let one = (target.bias() as u64) << (digits - 1);
                assert_eq!(result, one + number as u64 + u64::from(is_up));
                // the tie goes to the even neighbour
                let even = one + number as u64 + (number as u64 & 1);
                assert_eq!(twice(once[1], Format::BINARY64).result, even);
                if digits < 24 {
                    assert_eq!(twice(once[2], Format::BINARY32).result, even);
                }
                others += u32::from(result != even);
            }
        }
    }
    assert_eq!(others, 5 * 4 * 2);
}

/// Formats of one list and targets of which one reaches much farther up or down.
#[test]
fn exponents_that_reach_farther_or_less_far() {
    let half = Format::BINARY16;
    let list = [0x3c00, 0x0001, 0x8400, 0x7bff];
    for bias in [15, 0, -1, 40, -40, 3000, -3000, FARTHEST, -FARTHEST] {
        for other in [15, 1, -2, 55, -30, 2990, -2990, FARTHEST, -FARTHEST] {
            let lent = Totals::of(half.with_bias(bias));
            for f in [half, Format::E4M3, Format::E4M3_FNUZ, Format::E3M2] {
                let wide = Format::new(f.kind, 28, 28 + f.digits());
                for rounding in ROUNDINGS {
                    let targets = [
                        under(f.with_bias(other), rounding),
                        under(f, rounding),
                        under(wide.with_bias(other), rounding),
                    ];
                    check(lent, &list, targets);
                    check(lent, &list[1..3], targets);
                    check(lent, &list[1..2], targets);
                }
            }
        }
    }
    // encodings of one list of one bias into the same: nothing moves
    for bias in [15, -FARTHEST, FARTHEST] {
        let f = half.with_bias(bias);
        let slot = accepted(0x4000, 0, 1, EQUAL);
        check_slots(Totals::of(f), &[0x3c00, 0x3c00], [plain(f); 3], [slot; 3]);
        // and into one that starts where it ends, or ends where it starts
        let above = accepted(0, 0x38, 1, BELOW);
        let below = accepted(0x7c00, 0x54, 1, NO_COMPARISON);
        let [up, down] = [bias - 60, bias + 60].map(|bias| half.with_bias(bias));
        if [up.bias(), down.bias()]
            .iter()
            .all(|bias| bias.abs() <= FARTHEST)
        {
            let slots = [above, below, slot];
            let targets = [up, down, f].map(plain);
            check_slots(Totals::of(f), &[0x3c00, 0x3c00], targets, slots);
        }
    }
}

/// In the list's own format the record is that of the plain sum, under the target's settings and
/// the list's denormals-are-zero.
#[test]
fn the_own_format() {
    let mut draw = Draw(14);
    let formats = [
        Format::BINARY64,
        Format::BINARY32,
        Format::BINARY16,
        Format::BFLOAT16,
        Format::E5M2,
        Format::E4M3,
        Format::E5M2_FNUZ,
        Format::E4M3_FNUZ,
        Format::E3M2,
        Format::E2M1,
        Format::new(Kind::Fnuz, 11, 60),
        Format::BINARY16.with_bias(-40),
        Format::new(Kind::NoInf, 3, 20).with_bias(300),
    ];
    let mut accepted = 0;
    for round in 0..6000 {
        let f = formats[round % formats.len()];
        let values: Vec<u64> = (0..draw.below(7))
            .map(|_| draw.next() >> (64 - f.width))
            .collect();
        let settings = |draw: &mut Draw| drawn_settings(draw, f.digits());
        let targets = [0; 3].map(|_| plain(f).with_settings(settings(&mut draw)));
        let denormals_are_zero = draw.below(2) == 0;
        let records = reading(f, denormals_are_zero).sum_into(&values, &targets);
        for (record, target) in records.into_iter().zip(targets) {
            let settings = { target.settings }.with_denormals_are_zero(denormals_are_zero);
            let plain = Totals::of(f).with_settings(settings).sum(&values);
            if Exact::of(f, false, &values).is_some() {
                assert_eq!(record, plain);
                accepted += 1;
            } else {
                assert_eq!(record, Err(Refusal::TargetOutOfReach));
            }
        }
    }
    assert!(accepted > 9000, "{accepted}");
}

fn drawn_settings(draw: &mut Draw, digits: u8) -> Settings {
    let precision = match draw.below(3) {
        0 => 1 + draw.below(digits.into()) as u8,
        _ => 0,
    };
    let bits = draw.next();
    let is_set = |at: u32| bits >> at & 1 == 1;
    Settings::new()
        .with_rounding(ROUNDINGS[draw.below(8) as usize])
        .with_tininess(if is_set(0) {
            Tininess::AfterRounding
        } else {
            Tininess::BeforeRounding
        })
        .with_flush_to_zero(is_set(1) && is_set(2))
        .with_denormals_are_zero(is_set(3))
        .with_saturate(is_set(4))
        .with_default_nan_negative(is_set(5))
        .with_precision(precision)
}

const KINDS: [Kind; 4] = [Kind::Ieee, Kind::NoInf, Kind::Fnuz, Kind::Finite];

/// A format of any kind, whose least exponent, or whose greatest, is about where the sum is.
fn drawn_target(draw: &mut Draw, most_digits: u64, top: i64) -> Target {
    let exponent_bits = 2 + draw.below(27);
    let most = most_digits.min(64 - exponent_bits);
    let digits = if draw.below(3) == 0 {
        most
    } else {
        2 + draw.below(most - 1)
    };
    let kind = KINDS[draw.below(4) as usize];
    let f = Format::new(kind, exponent_bits as u8, (exponent_bits + digits) as u8);
    let near = draw.below(2 * digits + 3) as i64 - digits as i64 - 1;
    let f = match draw.below(5) {
        0 => f,
        // 1 − bias is the least exponent
        1 | 2 => f.with_bias(1 - top - near),
        3 => {
            let own = f.with_bias(0);
            f.with_bias(greatest(own) - top - near / 8)
        }
        _ => f.with_bias(draw.below(8000) as i64 - 4000),
    };
    plain(f).with_settings(drawn_settings(draw, digits as u8))
}

/// An encoding of a list's format, not a NaN and not an infinity, with its exponent field in a
/// range of so many.
fn drawn_value(draw: &mut Draw, f: Format, from: u64, fields: u64) -> u64 {
    loop {
        let (digits, last) = (u32::from(f.digits()), (1u64 << f.exponent_bits) - 1);
        let field = (from + draw.below(fields)).min(last);
        let fraction = draw.next() >> (65 - digits);
        // many zeros behind the first digits, or none
        let fraction = fraction >> draw.below(digits.into()) << draw.below(digits.into());
        let fraction = fraction & ((1 << (digits - 1)) - 1);
        let sign = draw.below(2) << (f.width - 1);
        let value = sign | field << (digits - 1) | fraction;
        if numbers::number(f, value).is_some() {
            return value;
        }
    }
}

/// Lists of any format into targets of any format, near to which the sum lies.
#[test]
fn drawn_lists_into_drawn_targets() {
    let mut draw = Draw(1414);
    let (mut zeros, mut inexact, mut many) = (0, 0, 0);
    for round in 0..6000 {
        let exponent_bits = [2, 3, 5, 8, 11, 15, 28][round % 7];
        let digits = 2 + draw.below(63 - exponent_bits);
        let kind = KINDS[draw.below(4) as usize];
        let list = Format::new(kind, exponent_bits as u8, (exponent_bits + digits) as u8);
        let list = match draw.below(3) {
            0 => list.with_bias(draw.below(4000) as i64 - 2000),
            _ => list,
        };
        let last = (1 << exponent_bits) - 1;
        let fields = [4, 40, 900, 2500][draw.below(4) as usize].min(last);
        let from = match draw.below(3) {
            0 => 0,
            _ => draw.below(last - fields + 1),
        };
        let mut values: Vec<u64> = (0..draw.below(7))
            .map(|_| drawn_value(&mut draw, list, from, fields))
            .collect();
        // some cancel, all or all but a few
        if round % 3 == 0 {
            let negated = values
                .clone()
                .into_iter()
                .map(|x| x ^ 1 << (list.width - 1));
            values.extend(negated.filter(|&x| numbers::number(list, x).is_some()));
            if round % 2 == 0 {
                let more = drawn_value(&mut draw, list, from, fields);
                values.push(more);
            }
        }
        let totals = reading(list, draw.below(2) == 0);
        let denormals_are_zero = totals.settings().denormals_are_zero;
        let exact = Exact::of(list, denormals_are_zero, &values).unwrap();
        let top = if exact.is_zero() { 0 } else { exact.top() };
        // a digit more than the list's format has, too
        let targets = [digits, digits, digits + 1].map(|most| drawn_target(&mut draw, most, top));
        let slots = targets.map(|target| wanted(totals, &values, Some(&exact), target));
        check_slots(totals, &values, targets, slots);
        zeros += u32::from(exact.is_zero());
        inexact += u32::from(slots[0][2] & 0x10 != 0);
        many += u32::from(slots[0][3] > 1);
        // backwards it is the same
        values.reverse();
        check_slots(totals, &values, targets, slots);
    }
    assert!(
        zeros > 500 && inexact > 2000 && many > 100,
        "{zeros} {inexact} {many}"
    );
}

/// Sums on a tie of a target and a little beside it, at places of all depths, of lists that must be
/// read more than once.
#[test]
fn beside_ties() {
    let mut draw = Draw(70);
    let totals = Totals::of(Format::BINARY64);
    for _ in 0..4000 {
        let digits = 2 + draw.below(51);
        let exponent_bits = 11.min(64 - digits);
        let kind = KINDS[draw.below(4) as usize];
        let f = Format::new(kind, exponent_bits as u8, (exponent_bits + digits) as u8);
        let at = draw.below(100) as i64 - 50;
        // so many digits, of which the last is worth 2^at
        let whole = 1 << (digits - 1) | draw.next() >> (65 - digits);
        let mut values = vec![whole as f64, 0.5]
            .into_iter()
            .map(|x| (x * f64::from_bits(power(at))).to_bits())
            .collect::<Vec<u64>>();
        if draw.below(5) != 0 {
            let depth = [2, 60, 200, 650, 800, 900][draw.below(6) as usize];
            values.push(power(at - depth) | draw.below(2) << 63);
        }
        if draw.below(2) == 0 {
            // and two that cancel
            let x = power(at + draw.below(900) as i64);
            values.extend([x, MINUS | x]);
        }
        let sign = draw.below(2) << 63;
        let values: Vec<u64> = values.iter().map(|x| x ^ sign).collect();
        let f = f.with_bias(draw.below(60) as i64);
        let targets = [0; 3].map(|_| {
            let settings = drawn_settings(&mut draw, digits as u8);
            plain(f).with_settings(settings)
        });
        check(totals, &values, [plain(f), targets[1], targets[2]]);
    }
}

/// Lists of `f32` are copied, and those of either float are those of encodings.
#[test]
fn floats() {
    let singles = [1f32, f32::from_bits(1), -0.1, 2e38, f32::MAX];
    let targets = [
        plain(Format::BINARY16),
        under(Format::BINARY32, Rounding::TowardNegative),
        plain(Format::BINARY64),
        plain(Format::new(Kind::Ieee, 11, 35)),
    ];
    for start in 0..=singles.len() {
        let list = &singles[start..];
        let encodings: Vec<u64> = list.iter().map(|x| x.to_bits().into()).collect();
        let words = Totals::of(Format::BINARY32).sum_into(&encodings, &targets);
        assert_eq!(sum_into(list, &targets), words);
        assert_eq!(words[2], Err(Refusal::TargetOutOfReach));
        check(
            Totals::of(Format::BINARY32),
            &encodings,
            [targets[0], targets[1], targets[3]],
        );
    }
    let totals = Totals::<f32>::new();
    let zero = totals.with_settings(Settings::new().with_denormals_are_zero(true));
    let least = f32::from_bits(1);
    let [counted, left_out] = [totals, zero].map(|totals| totals.sum_into(&[least], &targets)[3]);
    // 2^−149 in a format of 24 digits that has it as a normal number
    assert_eq!(slot(counted), accepted((1023 - 149) << 23, 0x80, 1, EQUAL));
    assert_eq!(slot(left_out), accepted(0, 0x80, 0, EQUAL));
    // a target's own has no effect
    let own = Settings::new().with_denormals_are_zero(true);
    let target = targets[3].with_settings(own);
    assert_eq!(totals.sum_into(&[least], &[target]), [counted]);
    // a NaN, and an infinity, refuse every target
    for special in [f32::NAN, f32::INFINITY, f32::NEG_INFINITY] {
        let records = sum_into(&[1.0, special], &targets);
        assert_eq!(records, [Err(Refusal::TargetOutOfReach); 4]);
    }
}

/// A list as long as a career of days, and every order of it.
#[test]
fn long_lists() {
    let mut draw = Draw(365);
    let mut values: Vec<u64> = (0..20_000)
        .map(|_| (draw.below(1_000_000) as f64 / 100.0 - 2500.0).to_bits())
        .collect();
    let totals = Totals::of(Format::BINARY64);
    let targets = [
        plain(Format::BINARY64),
        plain(Format::BINARY32),
        under(Format::BFLOAT16, Rounding::TowardZero),
    ];
    check(totals, &values, targets);
    let records = totals.sum_into(&values, &targets);
    for _ in 0..10 {
        let k = draw.below(values.len() as u64) as usize;
        values.rotate_left(k);
        values.reverse();
        assert_eq!(totals.sum_into(&values, &targets), records);
    }
    let floats: Vec<f64> = values.iter().map(|&x| f64::from_bits(x)).collect();
    let plain = sum(&floats).unwrap();
    let own = records[0].unwrap();
    assert_eq!(own.result, plain.result.to_bits());
    assert_eq!((own.flags, own.side), (plain.flags, plain.side));
}

/// What the examples print: the total of a career in three formats.
#[test]
fn the_statement_of_a_career() {
    let months = include_str!("data/career.txt").lines();
    let mut months: Vec<u64> = months
        .map(|line| u64::from_str_radix(line, 16).unwrap())
        .collect();
    let targets = [Format::BINARY64, Format::BINARY32, Format::BINARY16].map(plain);
    // forwards, and backwards
    for _ in 0..2 {
        check(Totals::of(Format::BINARY64), &months, targets);
        let records = Totals::of(Format::BINARY64).sum_into(&months, &targets);
        let lines = include_str!("data/statement.expected").lines();
        assert_eq!(lines.clone().count(), 3);
        for ((record, target), line) in records.into_iter().zip(targets).zip(lines) {
            let (record, width) = (record.unwrap(), usize::from(target.format.width));
            let digits = width / 4;
            let (flags, side) = (record.flags.bits(), record.side as u8);
            let printed = format!(
                "binary{width} {:0digits$x} flags {flags:02x} side {side} ",
                record.result
            );
            assert!(line.starts_with(&printed), "{line} is not {printed}");
        }
        months.reverse();
    }
}
