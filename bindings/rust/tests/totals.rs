//! The typed interface over the byte entries: numbers, formats, flags and refusals.

mod common;

use common::ROUNDINGS;
use fermuzhai::{
    dot, magnitude_sum, raw, square_sum, sum, Flags, Format, Kind, List, NanPropagation, Refusal,
    Rounding, Settings, Summand, Tininess, Totals,
};

const KINDS: [Kind; 5] = [Kind::Ieee, Kind::NoInf, Kind::Fnuz, Kind::Finite, Kind::X87];

#[test]
fn enums_have_the_numbers_of_the_specification() {
    assert_eq!(KINDS.map(|kind| kind as u64), [0, 1, 2, 3, 4]);
    assert_eq!(
        ROUNDINGS.map(|rounding| rounding as u64),
        [0, 1, 2, 3, 4, 5, 6, 7]
    );
    assert_eq!(
        [Tininess::BeforeRounding, Tininess::AfterRounding].map(|t| t as u64),
        [0, 1]
    );
    let rules = [
        NanPropagation::SignalingFirst,
        NanPropagation::FirstOperand,
        NanPropagation::LargerSignificand,
        NanPropagation::DefaultNan,
    ];
    assert_eq!(rules.map(|rule| rule as u64), [0, 1, 2, 3]);
    assert_eq!(
        [Summand::Value, Summand::Magnitude, Summand::Square].map(|u| u as u64),
        [0, 1, 2]
    );
}

#[test]
fn settings_stand_in_their_order() {
    assert_eq!(<[u64; 8]>::from(Settings::new()), [0; 8]);
    assert_eq!(Settings::default(), Settings::new());
    let plain = Settings::new();
    let each = [
        plain.with_rounding(Rounding::TiesToAway),
        plain.with_tininess(Tininess::AfterRounding),
        plain.with_nan_propagation(NanPropagation::FirstOperand),
        plain.with_default_nan_negative(true),
        plain.with_flush_to_zero(true),
        plain.with_denormals_are_zero(true),
        plain.with_saturate(true),
        plain.with_precision(1),
    ];
    for (place, settings) in each.into_iter().enumerate() {
        let mut numbers = [0; 8];
        numbers[place] = 1;
        assert_eq!(<[u64; 8]>::from(settings), numbers);
    }
    assert_eq!(<[u64; 3]>::from(Format::BINARY16), [0, 5, 16]);
}

/// One and one are two: the encoding of 1 shows the bias, and 2 is the next exponent.
#[test]
fn known_formats() {
    for (format, one, two) in [
        (Format::BINARY64, 1f64.to_bits(), 2f64.to_bits()),
        (
            Format::BINARY32,
            1f32.to_bits().into(),
            2f32.to_bits().into(),
        ),
        (Format::BINARY16, 0x3c00, 0x4000),
        (Format::BFLOAT16, 0x3f80, 0x4000),
        (Format::TF32, 0x1fc00, 0x20000),
        (Format::E5M2, 0x3c, 0x40),
        (Format::E4M3, 0x38, 0x40),
        (Format::E5M2_FNUZ, 0x40, 0x44),
        (Format::E4M3_FNUZ, 0x40, 0x48),
        (Format::E3M2, 0x0c, 0x10),
        (Format::E2M3, 0x08, 0x10),
        (Format::E2M1, 0x2, 0x4),
    ] {
        let record = Totals::of(format).sum(&[one, one]).unwrap();
        assert_eq!(
            (record.result, record.flags, record.passes),
            (two, Flags::NONE, 1),
            "{format:?}"
        );
        // 1 × 2 + 2 × 1 is four squares of 1
        let dot = Totals::of(format).dot(&[one, two], &[two, one]).unwrap();
        assert_eq!(
            dot,
            Totals::of(format)
                .square_sum(&[one, one, one, one])
                .unwrap(),
            "{format:?}"
        );
    }
    // the largest number of each small format, doubled: 448 in E4M3 overflows to its NaN, E2M1
    // stays at 6
    let largest = Totals::of(Format::E4M3).sum(&[0x7e, 0x7e]).unwrap();
    assert_eq!(
        (largest.result, largest.flags),
        (0x7f, Flags::OVERFLOW | Flags::INEXACT)
    );
    let largest = Totals::of(Format::E2M1).sum(&[0x7, 0x7]).unwrap();
    assert_eq!(
        (largest.result, largest.flags),
        (0x7, Flags::OVERFLOW | Flags::INEXACT)
    );
}

#[test]
fn floats_by_default() {
    let record = sum(&[1.0, 2f64.powi(-53), 2f64.powi(-1000)]).unwrap();
    assert_eq!(record.result, 1.0 + f64::EPSILON);
    assert_eq!(
        (record.flags, record.passes),
        (Flags::INEXACT | Flags::ROUNDED_UP, 2)
    );
    assert_eq!(sum(&[1f32, f32::EPSILON / 2.0]).unwrap().result, 1.0);
    assert_eq!(magnitude_sum(&[-1.5f32, 2.0]).unwrap().result, 3.5);
    assert_eq!(square_sum(&[-1.5f32, 2.0]).unwrap().result, 6.25);
    assert_eq!(dot(&[-1.5f32, 2.0], &[2.0, 0.25]).unwrap().result, -2.5);
    assert_eq!(sum::<f64>(&[]).unwrap().result.to_bits(), 0);
    assert_eq!(sum(&[-0f64]).unwrap().result.to_bits(), 1 << 63);
    assert_eq!(Totals::<f32>::default(), Totals::<f32>::new());
    assert_eq!(Totals::<f32>::new().format(), Format::BINARY32);
}

#[test]
fn settings_are_heard() {
    let least = f64::from_bits(1);
    let under = |settings: Settings| Totals::<f64>::new().with_settings(settings);
    let plain = under(Settings::new()).sum(&[least]).unwrap();
    assert_eq!(
        (plain.result, plain.flags),
        (least, Flags::TINY | Flags::SUBNORMAL_INPUT)
    );
    let flushed = under(Settings::new().with_flush_to_zero(true))
        .sum(&[least])
        .unwrap();
    assert_eq!(flushed.result, 0.0);
    assert!(flushed
        .flags
        .contains(Flags::UNDERFLOW | Flags::INEXACT | Flags::TINY));
    let zero = under(Settings::new().with_denormals_are_zero(true))
        .sum(&[least])
        .unwrap();
    assert_eq!(
        (zero.result, zero.flags, zero.passes),
        (0.0, Flags::SUBNORMAL_INPUT, 0)
    );
    let most = under(Settings::new().with_saturate(true))
        .sum(&[f64::MAX, f64::MAX])
        .unwrap();
    assert_eq!(
        (most.result, most.flags),
        (f64::MAX, Flags::OVERFLOW | Flags::INEXACT)
    );
    let infinities = [f64::INFINITY, f64::NEG_INFINITY];
    let nan = under(Settings::new().with_default_nan_negative(true))
        .sum(&infinities)
        .unwrap();
    assert!(nan.result.is_nan() && nan.result.is_sign_negative());
    assert_eq!(nan.flags, Flags::INVALID);
    let nans = [
        f64::from_bits(0x7ff8_0000_0000_0001),
        f64::from_bits(0x7ff0_0000_0000_0002),
    ];
    let chosen = |rule| {
        under(Settings::new().with_nan_propagation(rule))
            .sum(&nans)
            .unwrap()
    };
    assert_eq!(
        chosen(NanPropagation::SignalingFirst).result.to_bits(),
        0x7ff8_0000_0000_0002
    );
    assert_eq!(
        chosen(NanPropagation::FirstOperand).result.to_bits(),
        0x7ff8_0000_0000_0001
    );
    assert_eq!(
        chosen(NanPropagation::DefaultNan).result.to_bits(),
        0x7ff8_0000_0000_0000
    );
    // 2^-1022 - 2^-1100: tiny before rounding, not after
    let (left, right) = (
        [2f64.powi(-511), 2f64.powi(-600)],
        [2f64.powi(-511), -(2f64.powi(-500))],
    );
    let before = under(Settings::new()).dot(&left, &right).unwrap();
    let after = under(Settings::new().with_tininess(Tininess::AfterRounding))
        .dot(&left, &right)
        .unwrap();
    assert_eq!(
        (before.result, after.result),
        (f64::MIN_POSITIVE, f64::MIN_POSITIVE)
    );
    assert!(before.flags.contains(Flags::TINY));
    assert!(!after.flags.contains(Flags::TINY));
}

#[test]
fn refusals() {
    let halves = Totals::of(Format::BINARY16);
    assert_eq!(
        halves.sum_bytes(Summand::Value, &[0; 7]),
        Err(Refusal::UnevenLength { list: None })
    );
    let uneven = |list| Err(Refusal::UnevenLength { list: Some(list) });
    assert_eq!(halves.dot_bytes(&[0; 8], &[0; 15]), uneven(List::Right));
    assert_eq!(halves.dot_bytes(&[0; 9], &[0; 16]), uneven(List::Left));
    assert_eq!(halves.dot_bytes(&[0; 9], &[0; 15]), uneven(List::Left));
    assert_eq!(
        Totals::of(Format::new(Kind::Ieee, 11, 12)).sum(&[]),
        Err(Refusal::NoSuchFormat)
    );
    assert_eq!(
        Totals::of(Format::new(Kind::Ieee, 1, 64)).dot(&[], &[0]),
        Err(Refusal::NoSuchFormat)
    );
    let digits = |n| halves.with_settings(Settings::new().with_precision(n));
    assert!(digits(0).sum(&[]).is_ok());
    assert!(digits(11).sum(&[]).is_ok());
    let too_precise = Refusal::PrecisionOutOfRange {
        precision: 12,
        digits: 11,
    };
    assert_eq!(digits(12).sum(&[]), Err(too_precise));
    assert_eq!(digits(12).dot(&[1], &[]), Err(too_precise));
    assert_eq!(
        Totals::<f64>::new()
            .with_settings(Settings::new().with_precision(54))
            .sum(&[1.0]),
        Err(Refusal::PrecisionOutOfRange {
            precision: 54,
            digits: 53
        })
    );
    assert_eq!(dot(&[1.0], &[1.0, 2.0]), Err(Refusal::DifferentLengths));
    assert_eq!(
        sum(&vec![0f64; (1 << 28) + 1]),
        Err(Refusal::TooManyElements)
    );
    assert!(sum(&vec![0f32; (1 << 20) + 1]).is_ok());
    assert_eq!(
        halves.sum(&[0xffff, 0x10000, 1 << 63]),
        Err(Refusal::StrayBit {
            place: 1,
            list: None
        })
    );
    let stray = |place, list| {
        Err(Refusal::StrayBit {
            place,
            list: Some(list),
        })
    };
    assert_eq!(
        halves.dot(&[1, 2, 3], &[4, 5, 0x10000]),
        stray(2, List::Right)
    );
    assert_eq!(
        halves.dot(&[1, 0x10000, 3], &[0x10000, 5, 6]),
        stray(1, List::Left)
    );
    assert_eq!(
        halves.dot(&[1 << 63, 0], &[1 << 63, 0]),
        stray(0, List::Left)
    );
    // several in both lists: the first of the left one
    assert_eq!(
        halves.dot(&[0, 0x10000, 0x10000], &[0x10000, 0x10000, 0]),
        stray(1, List::Left)
    );
    assert_eq!(
        halves.dot(&[0, 0, 0, 0], &[0, 0x10000, 0, 0x10000]),
        stray(1, List::Right)
    );
    let wide = Totals::of(Format::new(Kind::Ieee, 11, 63));
    assert_eq!(wide.dot(&[1, 1], &[0, 1 << 63]), stray(1, List::Right));
    let refusal: Box<dyn std::error::Error> =
        Box::new(halves.dot(&[1, 2, 3], &[4, 5, 0x10000]).unwrap_err());
    assert_eq!(
        refusal.to_string(),
        "the element at index 2 of the right list does not fit the format's width"
    );
}

#[test]
fn records_in_words() {
    let record = sum(&[1.0f32, 0.25]).unwrap();
    assert_eq!(record.to_string(), "1.25, flags NONE, passes 1");
    assert_eq!(format!("{record:8.3}"), "   1.250, flags NONE, passes 1");
    let nan = sum(&[f64::INFINITY, f64::NEG_INFINITY]).unwrap();
    assert_eq!(nan.to_string(), "NaN, flags INVALID, passes 0");
    let word = Totals::of(Format::E2M1).sum(&[0x7, 0x7]).unwrap();
    assert_eq!(word.to_string(), "0x7, flags OVERFLOW | INEXACT, passes 1");
}

/// Both ways in give the same numbers.
#[test]
fn raw_answers_alike() {
    let (list, settings) = (
        [1u64, 0x3c01, 0xbc00, 0x7bff],
        Settings::new().with_rounding(Rounding::ToOdd),
    );
    for kind in KINDS.into_iter().filter(|&kind| kind != Kind::X87) {
        let format = Format::new(kind, 5, 16);
        let totals = Totals::of(format).with_settings(settings);
        for summand in [Summand::Value, Summand::Magnitude, Summand::Square] {
            let mut answer = [0xa5; 25];
            let code = raw::sum(
                format.into(),
                settings.into(),
                summand as u64,
                &raw::bytes(&list),
                &mut answer,
            );
            assert_eq!(code, 0);
            let record = totals.sum_of(summand, &list).unwrap();
            assert_eq!(answer[0..8], record.result.to_le_bytes());
            assert_eq!(
                answer[8..17],
                [
                    record.flags.bits(),
                    0,
                    record.side as u8,
                    0,
                    0,
                    0,
                    0,
                    0,
                    record.passes as u8
                ]
            );
        }
    }
}
