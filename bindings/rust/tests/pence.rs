//! The pence of a list, through `raw`, through `Totals` and through the free function. The
//! expectations are a hundred times the exact sum, worked out by hand, by exact fractions or in
//! whole numbers of 128 bits, and rounded to the nearest, a half away from zero.

use fermuzhai::{pence, raw, Format, Kind, Refusal, Settings, Totals};

const FARTHEST: i64 = Format::FARTHEST_BIAS;
const LIMIT: usize = 1 << 28;
const LEAST: f64 = f64::from_bits(1);

/// 2^n, for a normal number.
fn power(n: i64) -> f64 {
    f64::from_bits(((n + 1023) as u64) << 52)
}

fn refused(code: u64) -> Refusal {
    Refusal::from_code(code).unwrap()
}

/// Every way to the figure of encodings.
fn check(format: Format, list: &[u64], wanted: Result<i64, u64>) {
    let given = raw::pence(format.into(), format.named_bias, list);
    assert_eq!(given, wanted, "{format:?} {list:x?}");
    assert_eq!(
        Totals::of(format).pence(list),
        wanted.map_err(refused),
        "{format:?} {list:x?}"
    );
}

/// And of doubles, of either sign: −2^63 is refused as 2^63 is.
fn check_doubles(list: &[f64], wanted: Result<i64, u64>) {
    let negated: Vec<f64> = list.iter().map(|x| -x).collect();
    for (list, wanted) in [(list, wanted), (&negated, wanted.map(|figure| -figure))] {
        let encodings: Vec<u64> = list.iter().map(|x| x.to_bits()).collect();
        check(Format::BINARY64, &encodings, wanted);
        assert_eq!(pence(list), wanted.map_err(refused), "{list:?}");
        assert_eq!(Totals::<f64>::new().pence(list), pence(list), "{list:?}");
    }
}

#[test]
fn doubles() {
    #[rustfmt::skip]
    let rows: [(&[f64], i64); 22] = [
        (&[], 0),
        (&[0.0, -0.0], 0),
        (&[-0.0], 0),
        (&[412.37], 41237),
        (&[0.1, 0.2, 0.3, 1e16, -1e16], 60),
        // 12.5, 37.5 and 62.5: half a penny goes away from zero
        (&[0.125], 13),
        (&[0.375], 38),
        (&[0.625], 63),
        // a trace beside it, which the sum rounded to a double does not show
        (&[0.125, -8.673617379884035e-19], 12),
        (&[0.125, 8.673617379884035e-19], 13),
        (&[0.125, -LEAST], 12),
        (&[0.125, LEAST], 13),
        (&[0.375, -LEAST], 37),
        (&[0.375, LEAST], 38),
        // the doubles nearest to 2.675 and 1.005 are a little less, that to 0.005 a little more;
        // the one before it is less
        (&[2.675], 267),
        (&[1.005], 100),
        (&[0.005], 1),
        (&[f64::from_bits(0x3f74_7ae1_47ae_147a)], 0),
        (&[LEAST], 0),
        // the sum is far smaller than what it is a sum of
        (&[1e300, 0.125, -1e300], 13),
        (&[1e300, 1e100, 0.125, -1e100, -1e300, -LEAST], 12),
        (&[f64::MAX, f64::MAX, 0.125, -f64::MAX, -f64::MAX], 13),
    ];
    assert_eq!(8.673617379884035e-19, power(-60));
    assert_eq!(0.005f64.to_bits(), 0x3f74_7ae1_47ae_147b);
    for (list, figure) in rows {
        check_doubles(list, Ok(figure));
    }
}

/// Beside ±2^63, the least figures that are refused.
#[test]
fn the_largest_figures() {
    check_doubles(&[power(56)], Ok(7_205_759_403_792_793_600));
    check_doubles(&[power(56), LEAST], Ok(7_205_759_403_792_793_600));
    check_doubles(&[power(57)], Err(8));
    check_doubles(&[f64::MAX, f64::MAX], Err(8));
    // 9,223,372,036,854,775,800 pence in two doubles
    let [most, rest] = [92_233_720_368_547_744.0, 14.0];
    assert_eq!(most as i64 + rest as i64, 92_233_720_368_547_758);
    // and 7 more; 7.4999999999999997; 7.5000000000000011; 8
    check_doubles(&[most, rest, 0.07], Ok(i64::MAX));
    check_doubles(&[most, rest, 0.075], Ok(i64::MAX));
    check_doubles(
        &[most, rest, f64::from_bits(0.075f64.to_bits() + 1)],
        Err(8),
    );
    check_doubles(&[most, rest, 0.08], Err(8));
    check_doubles(&[most, rest, 0.07, 0.01], Err(8));
    check_doubles(&[most, rest, 0.08, -0.01], Ok(i64::MAX));
}

#[test]
fn singles() {
    assert_eq!(pence(&[0.125f32]), Ok(13));
    assert_eq!(pence(&[0.125f32, -f32::from_bits(1)]), Ok(12));
    assert_eq!(pence::<f32>(&[]), Ok(0));
    assert_eq!(pence(&[f32::INFINITY]), Err(Refusal::NoPence));
    // a quarter and a half of a pound by turns
    let many: Vec<f32> = (0..1001)
        .map(|i| if i % 2 == 0 { 0.25 } else { -0.5 })
        .collect();
    assert_eq!(pence(&many), Ok(501 * 25 - 500 * 50));
}

/// Each format that has a name: an eighth of a pound, or the least number where that is more; a sum
/// that is too large for the format; NaNs and infinities.
#[test]
fn formats() {
    #[rustfmt::skip]
    let rows: [(Format, &[u64], i64); 23] = [
        (Format::BINARY64, &[0x3fc0_0000_0000_0000, 0xbc30_0000_0000_0000], 12),
        (Format::BINARY32, &[0x3e00_0000], 13),
        (Format::BINARY16, &[0x3000], 13),
        (Format::BFLOAT16, &[0x3e00], 13),
        (Format::TF32, &[0x1f000], 13),
        (Format::E5M2, &[0x30], 13),
        (Format::E4M3, &[0x20], 13),
        (Format::E5M2_FNUZ, &[0x34], 13),
        (Format::E4M3_FNUZ, &[0x28], 13),
        (Format::E3M2, &[0x02], 13),
        (Format::E2M3, &[0x01], 13),
        (Format::E2M1, &[0x1], 50),
        // a subnormal value is no zero: an eighth less 2^−24; 64 times 2^−9; 1/16
        (Format::BINARY16, &[0x3000, 0x8001], 12),
        (Format::E4M3, &[0x01; 64], 13),
        (Format::E3M2, &[0x02, 0x21], 6),
        // twice 65504, 57344, 448, 57344, 240, 28, 7.5, 6
        (Format::BINARY16, &[0x7bff, 0x7bff], 13_100_800),
        (Format::E5M2, &[0x7b, 0x7b], 11_468_800),
        (Format::E4M3, &[0x7e, 0x7e], 89_600),
        (Format::E5M2_FNUZ, &[0x7f, 0x7f], 11_468_800),
        (Format::E4M3_FNUZ, &[0x7f, 0x7f], 48_000),
        (Format::E3M2, &[0x3f, 0x3f], -5_600),
        (Format::E2M3, &[0x3f, 0x3f], -1_500),
        (Format::E2M1, &[0xf, 0xf], -1_200),
    ];
    for (format, list, figure) in rows {
        check(format, list, Ok(figure));
        let own = format.with_bias(format.bias());
        check(own, list, Ok(figure));
    }
    #[rustfmt::skip]
    let none = [
        (Format::BINARY64, 0x7ff0_0000_0000_0000),
        (Format::BINARY64, 0xfff0_0000_0000_0000),
        (Format::BINARY64, 0x7ff8_0000_0000_0000),
        (Format::BINARY64, 0xfff0_0000_0000_0001),
        (Format::BINARY32, 0x7f80_0000),
        (Format::BINARY16, 0x7e00),
        (Format::E5M2, 0xfc),
        (Format::E4M3, 0x7f),
        (Format::E4M3, 0xff),
        (Format::E5M2_FNUZ, 0x80),
        (Format::E4M3_FNUZ, 0x80),
    ];
    for (format, value) in none {
        check(format, &[0, value], Err(8));
    }
    // infinities of both signs
    check(Format::BINARY16, &[0x7c00, 0xfc00], Err(8));
}

#[test]
fn named_biases() {
    let half = |bias| Format::BINARY16.with_bias(bias);
    #[rustfmt::skip]
    let rows: [(Format, &[u64], Result<i64, u64>); 20] = [
        // 2^−10; 2^−3; 2^−10 − 2^−3; 128 times 2^−10
        (half(25), &[0x3c00], Ok(0)),
        (half(25), &[0x5800], Ok(13)),
        (half(25), &[0xd800, 0x3c00], Ok(-12)),
        (half(25), &[0x3c00; 128], Ok(13)),
        // 2^15
        (half(0), &[0x3c00], Ok(3_276_800)),
        // the least number is 2^−4
        (half(-5), &[0x0001], Ok(6)),
        (half(-5), &[0x0001, 0x0001], Ok(13)),
        // 2^56 and 2^57
        (half(-40), &[0x3c00, 0x3c00], Ok(7_205_759_403_792_793_600)),
        (half(-40), &[0x4400], Err(8)),
        (half(-2000), &[0x0001], Err(8)),
        (half(-2000), &[0x0001, 0x8001], Ok(0)),
        (half(FARTHEST), &[0x7bff, 0x7bff], Ok(0)),
        (half(FARTHEST), &[0x7c00], Err(8)),
        (half(-FARTHEST), &[0x0000, 0x8000], Ok(0)),
        (half(-FARTHEST), &[0x8001], Err(8)),
        (half(FARTHEST + 1), &[], Err(3)),
        (half(-FARTHEST - 1), &[], Err(3)),
        (half(i64::MIN), &[0x1_0000], Err(3)),
        // 8 and 24; in Fnuz 30
        (Format::new(Kind::Finite, 2, 4).with_bias(-3), &[1, 3], Ok(3200)),
        (Format::E4M3_FNUZ.with_bias(11), &[0x7f], Ok(3000)),
    ];
    for (format, list, wanted) in rows {
        check(format, list, wanted);
    }
}

#[test]
fn settings_play_no_part() {
    let settings = Settings::new()
        .with_denormals_are_zero(true)
        .with_flush_to_zero(true)
        .with_precision(64);
    let halves = Totals::of(Format::BINARY16).with_settings(settings);
    assert_eq!(halves.pence(&[0x3000, 0x8001]), Ok(12));
    // where they play one there is no such precision
    assert!(halves.sum(&[0x3000, 0x8001]).is_err());
}

#[test]
fn refusals_in_their_order() {
    let half = Format::BINARY16;
    // a stray bit comes before a NaN, though that stands first, and the first one is told
    check(half, &[0x7e00, 0x1_0000], Err(7 + 256));
    check(half, &[0x7e00, 0x1_0000, 0x2_0000], Err(7 + 256));
    check(half, &[1 << 63], Err(7));
    check(
        Format::new(Kind::Ieee, 11, 63),
        &[0, 0, 1 << 63],
        Err(7 + 512),
    );
    // a format comes before all else, with an empty list too
    for format in [
        Format::new(Kind::Ieee, 1, 16),
        Format::new(Kind::Ieee, 29, 64),
        Format::new(Kind::Ieee, 11, 12),
        Format::new(Kind::Finite, 4, 65),
    ] {
        check(format, &[], Err(3));
        check(format.with_bias(0), &[u64::MAX], Err(3));
    }
    assert_eq!(raw::pence([4, 5, 16], None, &[0x1_0000]), Err(3));

    // an eighth of a pound each, a million and some; a NaN and a stray bit among them
    let mut list = vec![0x3000; 1_048_577];
    check(half, &list, Ok(13_107_213));
    list[1_048_575] = 0x7e00;
    check(half, &list, Err(8));
    list[1_048_576] = 0x1_0000;
    check(half, &list, Err(7 + 256 * 1_048_576));

    // one more than there may be, with a NaN and a stray bit; zeros that nobody wrote take no
    // memory
    let mut list = vec![0; LIMIT + 1];
    list[LIMIT - 1] = 0x7e00;
    list[LIMIT] = 0x1_0000;
    let too_many = Err(Refusal::TooManyElements);
    assert_eq!(raw::pence([0, 5, 16], None, &list), Err(6));
    assert_eq!(Totals::of(half).pence(&list), too_many);
    let far = half.with_bias(FARTHEST + 1);
    assert_eq!(Totals::of(far).pence(&list), Err(Refusal::NoSuchFormat));
    assert_eq!(pence(&vec![0f64; LIMIT + 1]), too_many);
}

/// Eighths of a pound, many of them ties, beside amounts that cancel: the whole number of eighths
/// is known, and so is the figure.
#[test]
fn one_figure_in_every_order() {
    let mut state = 480u64;
    let mut draw = || {
        state = state
            .wrapping_mul(6_364_136_223_846_793_005)
            .wrapping_add(1_442_695_040_888_963_407);
        state >> 11
    };
    let mut ties = 0;
    for round in 0..500 {
        let mut eighths = 0i128;
        let mut list = vec![1e300, -1e300];
        for _ in 0..round % 20 {
            // below 2^51, so a double has it
            let n = (draw() >> (2 + round % 50)) as i64 * if draw() % 2 == 0 { 1 } else { -1 };
            eighths += i128::from(n);
            list.push(n as f64 / 8.0);
        }
        // 100 / 8 is 25 / 2
        let twice = 25 * eighths;
        let up = (twice.abs() + 1) / 2 * twice.signum();
        // where it is a tie, a trace toward zero decides
        if twice % 2 != 0 && round % 3 == 0 {
            list.push(LEAST.copysign(-(twice as f64)));
        }
        let is_less = list.len() > 2 + round % 20;
        ties += u32::from(twice % 2 != 0);
        let figure = i64::try_from(if is_less { up - twice.signum() } else { up }).unwrap();
        for turn in 0..5 {
            assert_eq!(pence(&list), Ok(figure), "{list:?}");
            let by = list.len() * turn / 5;
            list.rotate_left(by);
            list.swap(0, 1);
        }
    }
    assert!(ties > 100, "{ties}");
}
