//! Formats that name a bias, through the entries and through `Totals`. The rows are those of the
//! definitions' own table, whose theorem is `biases-agree`; that the kind's own bias may be named
//! is `named-own`.

mod common;

use std::collections::HashSet;

use common::ROUNDINGS;
use fermuzhai::raw::{bytes, dot, dot_biased, sum, sum_biased};
use fermuzhai::{Flags, Format, Kind, List, Refusal, Settings, Side, Summand, Totals};

const FARTHEST: i64 = Format::FARTHEST_BIAS;
const BEYOND: [i64; 4] = [FARTHEST + 1, -FARTHEST - 1, i64::MAX, i64::MIN];
const HALF: [u64; 3] = [0, 5, 16];
const PLAIN: [u64; 8] = [0; 8];
const UNTOUCHED: u8 = 0xa5;
const ROOM: usize = 40;

/// What a call returns, and the whole buffer that it was lent.
type Called = (u64, [u8; ROOM]);

fn called(entry: impl FnOnce(&mut [u8]) -> u64) -> Called {
    let mut buffer = [UNTOUCHED; ROOM];
    (entry(&mut buffer), buffer)
}

/// What an accepted call with one pass leaves.
fn written(result: u64, flags: u8, side: u8) -> Called {
    let mut buffer = [UNTOUCHED; ROOM];
    buffer[..8].copy_from_slice(&result.to_le_bytes());
    buffer[8..16].copy_from_slice(&[flags, 0, side, 0, 0, 0, 0, 0]);
    buffer[16..24].copy_from_slice(&1u64.to_le_bytes());
    (0, buffer)
}

fn refused(code: u64) -> Called {
    (code, [UNTOUCHED; ROOM])
}

/// Both ways to a sum: the entry's bytes, and the record over it.
fn check_sum(format: Format, rounding: usize, summand: Summand, list: &[u64], wanted: Called) {
    let settings = Settings::new().with_rounding(ROUNDINGS[rounding]);
    let bias = format.named_bias.unwrap();
    let given = called(|answer| {
        sum_biased(
            format.into(),
            bias,
            settings.into(),
            summand as u64,
            &bytes(list),
            answer,
        )
    });
    assert_eq!(given, wanted, "{format:?}");
    let totals = Totals::of(format).with_settings(settings);
    let record = totals.sum_of(summand, list).unwrap();
    let (_, buffer) = wanted;
    assert_eq!(record.result.to_le_bytes(), buffer[..8], "{format:?}");
    assert_eq!(
        (record.flags.bits(), record.side as u8, record.passes),
        (buffer[8], buffer[10], 1),
        "{format:?}"
    );
    assert_eq!(
        totals.sum_bytes(summand, &bytes(list)),
        Ok(record),
        "{format:?}"
    );
    if summand == Summand::Square {
        let given = called(|answer| {
            let list = bytes(list);
            dot_biased(format.into(), bias, settings.into(), &list, &list, answer)
        });
        assert_eq!(given, wanted, "{format:?}");
        assert_eq!(totals.dot(list, list), Ok(record), "{format:?}");
    }
}

#[test]
fn biases() {
    let half = |bias| Format::BINARY16.with_bias(bias);
    for bias in [0, 15, -40, 40, FARTHEST, -FARTHEST] {
        let two = written(0x4000, 0, 0);
        check_sum(half(bias), 0, Summand::Value, &[0x3c00, 0x3c00], two);
    }
    // the square of the least normal number: far below the least number, above the largest
    #[rustfmt::skip]
    let squares = [
        (half(40), 0, 0x0400, written(0, 0x38, 1)),
        (half(-40), 0, 0x0400, written(0x7c00, 0x54, 3)),
        (half(-2000), 0, 1, written(0x7c00, 0xd4, 3)),
        (half(-2000), 5, 1, written(0x7bff, 0x94, 1)),
        // 1, of 2^(1 − 1)
        (half(1), 0, 0x0400, written(0x0400, 0, 0)),
        // a half, in rates below 2
        (Format::new(Kind::Finite, 4, 8).with_bias(15), 0, 0x70, written(0x68, 0, 0)),
    ];
    for (format, rounding, value, wanted) in squares {
        check_sum(format, rounding, Summand::Square, &[value], wanted);
    }
    // 8 and 24 are 32, where 1 is no number of the format
    let short = Format::new(Kind::Finite, 2, 4).with_bias(-3);
    check_sum(short, 0, Summand::Value, &[1, 3], written(4, 0x80, 0));
    // 30 times 1 is 30: in Fnuz the named bias takes the place of 2^(E − 1)
    let fnuz = Totals::of(Format::E4M3_FNUZ.with_bias(11));
    assert_eq!(fnuz.dot(&[0x7f], &[0x58]).unwrap().result, 0x7f);
}

#[test]
fn biases_out_of_range() {
    let list = bytes(&[0x3c00, 0x1_0000]);
    for bias in BEYOND {
        let sum_refused = |c, u, values: &[u8], room: usize| {
            called(|answer| sum_biased(HALF, bias, c, u, values, &mut answer[..room]))
        };
        let dot_refused = |left: &[u8], right: &[u8], room: usize| {
            called(|answer| dot_biased(HALF, bias, PLAIN, left, right, &mut answer[..room]))
        };
        assert_eq!(sum_refused(PLAIN, 0, &list[..8], ROOM), refused(3));
        assert_eq!(sum_refused(PLAIN, 0, &[], 24), refused(3));
        assert_eq!(dot_refused(&list[..8], &list[..8], ROOM), refused(3));
        // before a setting, two lengths and a stray bit; after the lengths in bytes
        assert_eq!(sum_refused([8; 8], 3, &list, ROOM), refused(3));
        assert_eq!(dot_refused(&list, &list[..8], ROOM), refused(3));
        assert_eq!(sum_refused(PLAIN, 0, &list[..7], 23), refused(1));
        assert_eq!(sum_refused(PLAIN, 0, &list, 23), refused(2));
        assert_eq!(dot_refused(&list, &list[..15], 23), refused(1));
        assert_eq!(dot_refused(&list, &list[..8], 23), refused(2));

        let totals = Totals::of(Format::BINARY16.with_bias(bias));
        assert_eq!(totals.sum(&[0x1_0000]), Err(Refusal::NoSuchFormat));
        assert_eq!(totals.dot(&[1], &[]), Err(Refusal::NoSuchFormat));
        let digits = Settings::new().with_precision(12);
        let precise = totals.with_settings(digits).square_sum(&[]);
        assert_eq!(precise, Err(Refusal::NoSuchFormat));
    }
    // a good bias makes no format good, and every later refusal comes as without one
    let wide = Totals::of(Format::new(Kind::Ieee, 29, 64).with_bias(0));
    assert_eq!(wide.sum(&[]), Err(Refusal::NoSuchFormat));
    let totals = Totals::of(Format::BINARY16.with_bias(-40));
    let stray = |place, list| Err(Refusal::StrayBit { place, list });
    assert_eq!(totals.sum(&[0x3c00, 0x1_0000]), stray(1, None));
    assert_eq!(
        totals.dot(&[1, 1], &[1, 1 << 63]),
        stray(1, Some(List::Right))
    );
    assert_eq!(totals.dot(&[1], &[]), Err(Refusal::DifferentLengths));
    let many = vec![0; (1 << 28) + 1];
    assert_eq!(totals.magnitude_sum(&many), Err(Refusal::TooManyElements));
    assert_eq!(
        totals
            .with_settings(Settings::new().with_precision(12))
            .sum(&[]),
        Err(Refusal::PrecisionOutOfRange {
            precision: 12,
            digits: 11
        })
    );
}

/// The number returned and every byte of the buffer, of refused calls too.
#[test]
fn naming_the_own_bias_is_naming_none() {
    let formats = [
        Format::BINARY64,
        Format::BINARY32,
        Format::BINARY16,
        Format::BFLOAT16,
        Format::TF32,
        Format::E5M2,
        Format::E4M3,
        Format::E5M2_FNUZ,
        Format::E4M3_FNUZ,
        Format::E3M2,
        Format::E2M3,
        Format::E2M1,
        Format::new(Kind::Fnuz, 28, 64),
        Format::new(Kind::Ieee, 11, 12),
    ];
    let lists = [
        [0, 0, 0],
        [1, 2, 3],
        [0x7c, 0x81, 0x17],
        [0x7bff, 0x8001, 0x7c01],
    ];
    let stray = [1, u64::MAX, 2];
    let mut accepted = 0;
    let mut calls = 0;
    for format in formats {
        let f = format.into();
        let cut = |list: [u64; 3]| list.map(|word| word & u64::MAX >> (64 - format.width));
        // 1, whose square is 1 with no other bias, and the next number
        let one = (format.bias() as u64) << (format.digits() - 1);
        let ones = [one, one, one + 1];
        for list in lists.map(cut).into_iter().chain([ones, stray]) {
            let list = bytes(&list);
            for k in 0..144 {
                #[rustfmt::skip]
                let c = [k % 9, k / 9 % 3, k % 4, k / 2 % 2, k / 4 % 2, k / 8 % 2, k / 16 % 2, k % 5];
                for u in 0..3 {
                    let plain = called(|answer| sum(f, c, u, &list, answer));
                    let named = called(|answer| sum_biased(f, format.bias(), c, u, &list, answer));
                    assert_eq!(named, plain, "{format:?} {c:?}");
                    accepted += u64::from(plain.0 == 0);
                }
                let plain = called(|answer| dot(f, c, &list, &list, answer));
                let named = called(|answer| dot_biased(f, format.bias(), c, &list, &list, answer));
                assert_eq!(named, plain, "{format:?} {c:?}");
                accepted += u64::from(plain.0 == 0);
                calls += 4;
            }
        }
        let own = Totals::of(format.with_bias(format.bias()));
        assert_eq!(
            own.square_sum(&[1, 2, 3]),
            Totals::of(format).square_sum(&[1, 2, 3])
        );
    }
    // and enough of them are totals
    assert!(accepted > calls / 3, "{accepted} of {calls}");
}

#[test]
fn formats_with_a_bias() {
    const RATES: Format = Format::new(Kind::Finite, 4, 8).with_bias(15);
    assert_eq!((RATES.named_bias, RATES.bias()), (Some(15), 15));
    assert_eq!((RATES.digits(), RATES.width), (4, 8));
    assert_eq!(<[u64; 3]>::from(RATES), [3, 4, 8]);
    assert_eq!(RATES.with_bias(-3).named_bias, Some(-3));
    assert_eq!(Totals::of(RATES).format(), RATES);
    for (format, own) in [
        (Format::BINARY64, 1023),
        (Format::E4M3, 7),
        (Format::E4M3_FNUZ, 8),
        (Format::E2M1, 1),
        (Format::new(Kind::Fnuz, 28, 64), 134_217_728),
    ] {
        assert_eq!((format.named_bias, format.bias()), (None, own));
        assert_ne!(format.with_bias(own), format);
        assert_eq!(format.with_bias(own), format.with_bias(own));
    }
    // equal answers, and yet two formats
    let half = Format::BINARY16;
    let set: HashSet<Format> = [half, half.with_bias(15), half.with_bias(15), half].into();
    assert_eq!(set.len(), 2);
    // numbers of no format, and no panic
    assert_eq!(Format::new(Kind::Ieee, 0, 0).bias(), 0);
    assert_eq!(Format::new(Kind::Fnuz, u8::MAX, 0).bias(), i64::MAX);
}

/// A bias moves the squares and not the sum: of encodings, a sum is the same in every bias.
#[test]
fn sums_and_squares() {
    let list = [0x0001, 0x3c01, 0xb3ff, 0x7bff, 0x7bff];
    let of = |bias| Totals::of(Format::BINARY16.with_bias(bias));
    for bias in [0, 1, -1, 40, -40, FARTHEST, -FARTHEST] {
        let plain = Totals::of(Format::BINARY16);
        assert_eq!(of(bias).sum(&list), plain.sum(&list));
        assert_eq!(of(bias).magnitude_sum(&list), plain.magnitude_sum(&list));
        assert_ne!(of(bias).square_sum(&[0x3c00]), plain.square_sum(&[0x3c00]));
    }
    let square = |bias| of(bias).square_sum(&[0x3c00]).unwrap();
    // (2^(15 − bias))^2
    assert_eq!((square(14).result, square(16).result), (0x4000, 0x3800));
    assert_eq!(
        (square(FARTHEST).flags, square(FARTHEST).side),
        (Flags::from_bits(0x38), Side::Below)
    );
}
