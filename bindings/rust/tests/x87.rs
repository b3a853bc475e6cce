//! Values of ten bytes, through the entries and through the lists of `X87`. The expectations are
//! those of the specification, or come from exact arithmetic: by hand, where a row says how, and in
//! whole numbers of 128 bits.

mod common;
mod draw;

use common::ROUNDINGS;
use draw::Draw;
use fermuzhai::raw::{self, Settings as Numbers};
use fermuzhai::{
    dot, magnitude_sum, square_sum, sum, Flags, Format, List, NanPropagation, Refusal, Rounding,
    Settings, Side, Summand, Totals, X87,
};

const EXTENDED: [u64; 3] = [4, 15, 80];
const PLAIN: Numbers = [0; 8];
const UNTOUCHED: u8 = 0xa5;
const LEADING: u64 = 1 << 63;
const QUIET: u64 = 0xc000_0000_0000_0000;
const SUMMANDS: [Summand; 3] = [Summand::Value, Summand::Magnitude, Summand::Square];
const RULES: [NanPropagation; 4] = [
    NanPropagation::SignalingFirst,
    NanPropagation::FirstOperand,
    NanPropagation::LargerSignificand,
    NanPropagation::DefaultNan,
];

const INFINITE: X87 = X87::from_parts(0x7fff, LEADING);
const MINUS_INFINITE: X87 = X87::from_parts(0xffff, LEADING);
/// The largest finite number, and its negative.
const MOST: X87 = X87::from_parts(0x7ffe, u64::MAX);
const MINUS_MOST: X87 = X87::from_parts(0xfffe, u64::MAX);
/// 2^−16445, the least positive number.
const LEAST: X87 = X87::from_parts(0, 1);
/// 2^−16382, as a pseudo-denormal and as the least normal number.
const PSEUDO: X87 = X87::from_parts(0, LEADING);
const LEAST_NORMAL: X87 = X87::from_parts(1, LEADING);
const ZERO: X87 = X87::from_parts(0, 0);

/// 2^n, for a normal number.
fn power(n: i32) -> X87 {
    X87::from_parts((n + 16_383) as u16, LEADING)
}

fn negated(x: X87) -> X87 {
    X87::from_parts(x.head() ^ 0x8000, x.significand())
}

/// A total, and what must come of it.
#[derive(Clone, Copy, Debug)]
enum Of<'a> {
    Sum(Summand, &'a [X87]),
    Dot(&'a [X87], &'a [X87]),
}

#[derive(Clone, Copy, Debug, PartialEq)]
struct Wanted(X87, u8, u64, Side);

fn entry(of: Of<'_>, c: Numbers, answer: &mut [u8]) -> u64 {
    match of {
        Of::Sum(u, list) => raw::sum(EXTENDED, c, u as u64, X87::bytes_of(list), answer),
        Of::Dot(left, right) => {
            let (left, right) = (X87::bytes_of(left), X87::bytes_of(right));
            raw::dot(EXTENDED, c, left, right, answer)
        }
    }
}

/// Every byte of buffers of 32 bytes and more, and the record over them.
fn check(of: Of<'_>, settings: Settings, wanted: Wanted) {
    let Wanted(result, flags, passes, side) = wanted;
    for room in [32, 33, 48] {
        let mut buffer = vec![UNTOUCHED; room];
        assert_eq!(entry(of, settings.into(), &mut buffer), 0, "{of:?}");
        assert_eq!(buffer[..10], result.to_bytes(), "{of:?}");
        assert_eq!(buffer[10..12], [flags, side as u8], "{of:?}");
        assert_eq!(buffer[12..24], [0; 12], "{of:?}");
        assert_eq!(buffer[24..32], passes.to_le_bytes(), "{of:?}");
        assert!(buffer[32..].iter().all(|&b| b == UNTOUCHED), "{of:?}");
    }
    let totals = Totals::<X87>::new().with_settings(settings);
    let record = match of {
        Of::Sum(u, list) => totals.sum_of(u, list),
        Of::Dot(left, right) => totals.dot(left, right),
    };
    let record = record.unwrap();
    let given = Wanted(
        record.result,
        record.flags.bits(),
        record.passes,
        record.side,
    );
    assert_eq!(given, wanted, "{of:?}");
}

fn check_plain(of: Of<'_>, wanted: Wanted) {
    check(of, Settings::new(), wanted);
}

#[test]
fn totals_of_the_page() {
    use Side::{Above, Below, Equal};
    use Summand::{Magnitude, Square, Value};
    let one = power(0);
    #[rustfmt::skip]
    let rows: [(Of<'_>, Wanted); 13] = [
        (Of::Sum(Value, &[]), Wanted(ZERO, 0, 0, Equal)),
        (Of::Sum(Value, &[PSEUDO]), Wanted(LEAST_NORMAL, 0x80, 1, Equal)),
        (Of::Sum(Value, &[one, power(-64)]), Wanted(one, 0x10, 1, Below)),
        (Of::Sum(Value, &[power(16_000), one, negated(power(16_000))]), Wanted(one, 0, 21, Equal)),
        (Of::Dot(&[MOST, MINUS_MOST, LEAST], &[MOST, MOST, LEAST]), Wanted(ZERO, 0xb8, 86, Below)),
        (Of::Dot(&[power(8000), negated(power(-8000))], &[power(8000), one]), Wanted(power(16_000), 0x50, 32, Above)),
        // 64 digits, and a tie to the even neighbour in each direction
        (Of::Sum(Value, &[one, power(-63)]), Wanted(X87::from_parts(0x3fff, LEADING + 1), 0, 1, Equal)),
        (Of::Sum(Value, &[one, power(-63), power(-64)]), Wanted(X87::from_parts(0x3fff, LEADING + 2), 0x50, 1, Above)),
        // subnormal results, of numbers that are none
        (Of::Sum(Value, &[X87::from_parts(1, LEADING + 1), negated(LEAST_NORMAL)]), Wanted(LEAST, 0x20, 1, Equal)),
        (Of::Sum(Square, &[power(-8222)]), Wanted(X87::from_parts(0, 2), 0x20, 1, Equal)),
        // 2^−16446 is a tie with zero, and 2^−16444 − 2^−16447 lies nearest to 2^−16444
        (Of::Sum(Square, &[power(-8223)]), Wanted(ZERO, 0x38, 1, Below)),
        (Of::Dot(&[power(-8222), negated(power(-8223))], &[power(-8222), power(-8224)]), Wanted(X87::from_parts(0, 2), 0x78, 1, Above)),
        (Of::Sum(Magnitude, &[negated(one), power(-64)]), Wanted(one, 0x10, 1, Below)),
    ];
    for (of, wanted) in rows {
        check_plain(of, wanted);
    }
}

#[test]
fn above_the_largest() {
    let twice = Of::Sum(Summand::Value, &[MOST, MOST]);
    check_plain(twice, Wanted(INFINITE, 0x54, 1, Side::NoComparison));
    let zero = Settings::new().with_rounding(Rounding::TowardZero);
    check(twice, zero, Wanted(MOST, 0x14, 1, Side::Below));
    let full = Settings::new().with_saturate(true);
    check(twice, full, Wanted(MOST, 0x14, 1, Side::Below));
    let squared = Of::Dot(&[MOST], &[MINUS_MOST]);
    check_plain(squared, Wanted(MINUS_INFINITE, 0x54, 1, Side::NoComparison));
    let up = Settings::new().with_rounding(Rounding::TowardPositive);
    check(squared, up, Wanted(MINUS_MOST, 0x14, 1, Side::Above));
}

/// Unnormals, pseudo-infinities and pseudo-NaNs, of both signs.
fn unsupported() -> Vec<X87> {
    let mut all = Vec::new();
    for significand in [0, 1, 1 << 62, LEADING - 1] {
        for field in [1, 0x3fff, 0x7ffe, 0x7fff] {
            for sign in [0, 0x8000] {
                all.push(X87::from_parts(sign | field, significand));
            }
        }
    }
    all
}

/// Whatever else the list holds: the default NaN and flag 1, with 128 where a value is subnormal.
#[test]
fn unsupported_encodings_come_before_all_else() {
    let (quiet, signaling) = (
        X87::from_parts(0x7fff, QUIET + 5),
        X87::from_parts(0xffff, LEADING + 7),
    );
    #[rustfmt::skip]
    let others = [ZERO, power(0), LEAST, PSEUDO, INFINITE, MINUS_INFINITE, quiet, signaling];
    for bad in unsupported() {
        assert!(bad.is_unsupported());
        for (k, negative) in [(0, false), (1, true), (2, false), (3, true)] {
            let settings = Settings::new()
                .with_nan_propagation(RULES[k])
                .with_default_nan_negative(negative);
            let nan = X87::from_parts(if negative { 0xffff } else { 0x7fff }, QUIET);
            let wanted = |sub: bool| {
                let flags = if sub { 0x81 } else { 1 };
                Wanted(nan, flags, 0, Side::NoComparison)
            };
            for u in SUMMANDS {
                check(Of::Sum(u, &[bad]), settings, wanted(false));
            }
            check(Of::Dot(&[bad], &[bad]), settings, wanted(false));
            for other in others {
                let sub = other == LEAST || other == PSEUDO;
                for u in SUMMANDS {
                    check(Of::Sum(u, &[bad, other]), settings, wanted(sub));
                    check(Of::Sum(u, &[other, bad]), settings, wanted(sub));
                }
                check(Of::Dot(&[bad], &[other]), settings, wanted(sub));
                check(Of::Dot(&[other], &[bad]), settings, wanted(sub));
            }
            // infinities of both signs, and one times zero, before it
            let both = [INFINITE, MINUS_INFINITE, bad];
            check(Of::Sum(Summand::Value, &both), settings, wanted(false));
            let zeros = [ZERO, signaling, power(0)];
            check(Of::Dot(&both, &zeros), settings, wanted(false));
            check(Of::Dot(&zeros, &both), settings, wanted(false));
        }
    }
}

#[test]
fn nans_and_infinities() {
    use Side::NoComparison;
    let quiet = |sign: u16, payload: u64| X87::from_parts(sign | 0x7fff, QUIET + payload);
    let signaling = |sign: u16, payload: u64| X87::from_parts(sign | 0x7fff, LEADING + payload);
    fn of(list: &[X87]) -> Of<'_> {
        Of::Sum(Summand::Value, list)
    }
    check_plain(
        of(&[power(3), quiet(0x8000, 9)]),
        Wanted(quiet(0x8000, 9), 0, 0, NoComparison),
    );
    // a signaling one first, and as a quiet one
    let nans = [quiet(0, 3), signaling(0x8000, 7), INFINITE];
    check_plain(of(&nans), Wanted(quiet(0x8000, 7), 1, 0, NoComparison));
    let first = Settings::new().with_nan_propagation(NanPropagation::FirstOperand);
    check(of(&nans), first, Wanted(quiet(0, 3), 1, 0, NoComparison));
    let none = Settings::new().with_nan_propagation(NanPropagation::DefaultNan);
    check(of(&nans), none, Wanted(quiet(0, 0), 1, 0, NoComparison));
    // the largest payload that a signaling NaN can have
    let all = (1 << 62) - 1;
    check_plain(
        of(&[signaling(0, all)]),
        Wanted(quiet(0, all), 1, 0, NoComparison),
    );

    check_plain(
        of(&[INFINITE, power(1)]),
        Wanted(INFINITE, 0, 0, NoComparison),
    );
    check_plain(
        of(&[LEAST, MINUS_INFINITE]),
        Wanted(MINUS_INFINITE, 0x80, 0, NoComparison),
    );
    check_plain(
        of(&[INFINITE, MINUS_INFINITE]),
        Wanted(quiet(0, 0), 1, 0, NoComparison),
    );
    let times_zero = Of::Dot(&[ZERO, INFINITE], &[MINUS_INFINITE, INFINITE]);
    check_plain(times_zero, Wanted(quiet(0, 0), 1, 0, NoComparison));
    let magnitudes = Of::Sum(Summand::Magnitude, &[INFINITE, MINUS_INFINITE]);
    check_plain(magnitudes, Wanted(INFINITE, 0, 0, NoComparison));
}

/// A pseudo-denormal is its number, counts as subnormal, and is a zero where subnormal values are.
#[test]
fn pseudo_denormals() {
    use Side::{Above, Below, Equal};
    use Summand::{Magnitude, Square, Value};
    let minus = negated(PSEUDO);
    let zero = Settings::new().with_denormals_are_zero(true);
    let all = X87::from_parts(0, u64::MAX);
    #[rustfmt::skip]
    let rows = [
        (Of::Sum(Value, &[PSEUDO]), Wanted(LEAST_NORMAL, 0x80, 1, Equal), ZERO),
        (Of::Sum(Value, &[minus]), Wanted(negated(LEAST_NORMAL), 0x80, 1, Equal), negated(ZERO)),
        (Of::Sum(Value, &[all]), Wanted(X87::from_parts(1, u64::MAX), 0x80, 1, Equal), ZERO),
        (Of::Sum(Magnitude, &[minus]), Wanted(LEAST_NORMAL, 0x80, 1, Equal), ZERO),
        // 2^−32764
        (Of::Sum(Square, &[minus]), Wanted(ZERO, 0xb8, 1, Below), ZERO),
        // 2^64 + 2^63 − 1 units of 2^−16445: a tie, to the even 2^64 + 2^63
        (Of::Sum(Value, &[PSEUDO, all]), Wanted(X87::from_parts(2, QUIET), 0xd0, 1, Above), ZERO),
        (Of::Dot(&[PSEUDO], &[power(0)]), Wanted(LEAST_NORMAL, 0x80, 1, Equal), ZERO),
        (Of::Dot(&[power(100)], &[PSEUDO]), Wanted(power(-16_282), 0x80, 1, Equal), ZERO),
    ];
    for (of, wanted, result) in rows {
        check_plain(of, wanted);
        check(of, zero, Wanted(result, 0x80, 0, Equal));
    }
    // an infinity times what is a zero then, and no zero else
    let infinite = Of::Dot(&[INFINITE], &[PSEUDO]);
    check_plain(infinite, Wanted(INFINITE, 0x80, 0, Side::NoComparison));
    let nan = X87::from_parts(0x7fff, QUIET);
    check(infinite, zero, Wanted(nan, 0x81, 0, Side::NoComparison));
    // beside a number
    let beside = Of::Sum(Value, &[PSEUDO, power(1)]);
    check(beside, zero, Wanted(power(1), 0x80, 1, Equal));
    // the same number in its two encodings cancels
    let two = Of::Sum(Value, &[PSEUDO, negated(LEAST_NORMAL)]);
    check_plain(two, Wanted(ZERO, 0x80, 1, Equal));
}

#[test]
fn precisions() {
    // 1 and a bit for each k, cut off below
    let list = [power(0), X87::from_parts(0x3ffe, u64::MAX)];
    let down = |digits| {
        Settings::new()
            .with_rounding(Rounding::TowardZero)
            .with_precision(digits)
    };
    // 1 + 1 − 2^−64
    for digits in 1..=64u8 {
        let kept = u64::MAX << (64 - digits);
        let wanted = Wanted(X87::from_parts(0x3fff, kept), 0x10, 1, Side::Below);
        check(Of::Sum(Summand::Value, &list), down(digits), wanted);
    }
    let own = Settings::new().with_rounding(Rounding::TowardZero);
    let wanted = Wanted(X87::from_parts(0x3fff, u64::MAX), 0x10, 1, Side::Below);
    check(Of::Sum(Summand::Value, &list), own, wanted);
    for digits in [65, 66, 80, 255] {
        let totals = Totals::<X87>::new().with_settings(down(digits));
        let refused = Err(Refusal::PrecisionOutOfRange {
            precision: digits,
            digits: 64,
        });
        assert_eq!(totals.sum(&list), refused);
        assert_eq!(totals.dot(&list, &[]), refused);
    }
}

/// The code of a refused call, which leaves every byte of the buffer.
fn refused_sum(f: [u64; 3], c: Numbers, u: u64, values: &[u8], room: usize) -> u64 {
    let mut buffer = vec![UNTOUCHED; room];
    let code = raw::sum(f, c, u, values, &mut buffer);
    assert!(code == 0 || buffer.iter().all(|&b| b == UNTOUCHED));
    code
}

fn refused_dot(f: [u64; 3], c: Numbers, left: &[u8], right: &[u8], room: usize) -> u64 {
    let mut buffer = vec![UNTOUCHED; room];
    let code = raw::dot(f, c, left, right, &mut buffer);
    assert!(code == 0 || buffer.iter().all(|&b| b == UNTOUCHED));
    code
}

#[test]
fn lengths_and_rooms() {
    let bytes = [0; 44];
    for (length, code) in [
        (0, 0),
        (1, 1),
        (8, 1),
        (9, 1),
        (10, 0),
        (11, 1),
        (15, 1),
        (16, 1),
        (20, 0),
        (40, 0),
    ] {
        assert_eq!(refused_sum(EXTENDED, PLAIN, 0, &bytes[..length], 32), code);
        let same = refused_dot(EXTENDED, PLAIN, &bytes[..length], &bytes[..length], 32);
        assert_eq!(same, code);
        let left = refused_dot(EXTENDED, PLAIN, &bytes[..length], &bytes[..10], 32);
        let wanted = if code == 1 {
            1
        } else if length == 10 {
            0
        } else {
            5
        };
        assert_eq!(left, wanted);
        let right = refused_dot(EXTENDED, PLAIN, &bytes[..10], &bytes[..length], 32);
        assert_eq!(right, wanted);
    }
    for (room, code) in [(0, 2), (24, 2), (31, 2), (32, 0), (33, 0)] {
        assert_eq!(refused_sum(EXTENDED, PLAIN, 0, &bytes[..10], room), code);
        let of_dot = refused_dot(EXTENDED, PLAIN, &bytes[..10], &bytes[..10], room);
        assert_eq!(of_dot, code);
        // 1 comes before 2
        assert_eq!(refused_sum(EXTENDED, PLAIN, 0, &bytes[..9], room), 1);
    }
}

#[test]
fn refusals_in_their_order() {
    let bytes = [0; 20];
    let high = [0, 0, 0, 0, 0, 0, 0, 65];
    for f in [
        [4, 14, 80],
        [4, 16, 80],
        [4, 15, 79],
        [4, 15, 81],
        [4, 15, 64],
        [4, 11, 64],
        [4, 0, 0],
    ] {
        assert_eq!(refused_sum(f, high, 3, &bytes, 32), 3);
        assert_eq!(refused_dot(f, high, &bytes, &bytes[..10], 32), 3);
        assert_eq!(refused_sum(f, high, 3, &bytes, 31), 2);
        assert_eq!(refused_sum(f, high, 3, &bytes[..19], 31), 1);
    }
    assert_eq!(refused_sum(EXTENDED, high, 0, &bytes, 32), 4);
    assert_eq!(refused_sum(EXTENDED, PLAIN, 3, &bytes, 32), 4);
    assert_eq!(
        refused_sum(EXTENDED, [8, 0, 0, 0, 0, 0, 0, 0], 0, &bytes, 32),
        4
    );
    assert_eq!(
        refused_sum(EXTENDED, [0, 0, 0, 0, 0, 0, 0, 64], 2, &bytes, 32),
        0
    );
    assert_eq!(refused_dot(EXTENDED, high, &bytes, &bytes[..10], 32), 4);
    assert_eq!(refused_dot(EXTENDED, PLAIN, &bytes, &bytes[..10], 32), 5);
    // memory that nobody writes or reads
    let many = vec![0; 10 * ((1 << 28) + 1)];
    assert_eq!(refused_sum(EXTENDED, PLAIN, 0, &many, 32), 6);
    assert_eq!(refused_dot(EXTENDED, PLAIN, &many, &many, 32), 6);
    assert_eq!(refused_dot(EXTENDED, PLAIN, &many, &bytes, 32), 5);
    assert_eq!(refused_sum(EXTENDED, high, 0, &many, 32), 4);
    let list = X87::list_of(&many).unwrap();
    assert_eq!(square_sum(list), Err(Refusal::TooManyElements));
}

/// With a bias it is 3, the one that the format has too; 1 and 2 by tens and by 32 before it.
#[test]
fn no_bias_can_be_named() {
    let bytes = [0; 20];
    for bias in [0, 16_383, -1, i64::MAX] {
        let sum = |values: &[u8], room: usize| {
            let mut buffer = vec![UNTOUCHED; room];
            let code = raw::sum_biased(EXTENDED, bias, PLAIN, 0, values, &mut buffer);
            assert!(buffer.iter().all(|&b| b == UNTOUCHED));
            code
        };
        assert_eq!(sum(&bytes, 32), 3);
        assert_eq!(sum(&bytes[..8], 32), 1);
        assert_eq!(sum(&bytes, 31), 2);
        let dot = |left: &[u8], right: &[u8], room: usize| {
            let mut buffer = vec![UNTOUCHED; room];
            let code = raw::dot_biased(EXTENDED, bias, PLAIN, left, right, &mut buffer);
            assert!(buffer.iter().all(|&b| b == UNTOUCHED));
            code
        };
        assert_eq!(dot(&bytes, &bytes[..10], 32), 3);
        assert_eq!(dot(&bytes, &bytes[..8], 32), 1);
        assert_eq!(dot(&bytes, &bytes, 31), 2);
    }
}

#[test]
fn kind_4_is_refused_elsewhere() {
    for format in [Format::EXTENDED, Format::EXTENDED.with_bias(16_383)] {
        let words = Totals::of(format);
        for count in [0, 1, 5] {
            let list = vec![1; count];
            assert_eq!(words.sum(&list), Err(Refusal::NoSuchFormat));
            assert_eq!(words.dot(&list, &list), Err(Refusal::NoSuchFormat));
            assert_eq!(words.pence(&list), Err(Refusal::NoSuchFormat));
            assert_eq!(words.table(&list, 1, count), Err(Refusal::NoSuchFormat));
            let bytes = vec![0; 10 * count];
            let refused = words.sum_bytes(Summand::Square, &bytes);
            assert_eq!(refused, Err(Refusal::NoSuchFormat));
            assert_eq!(raw::pence(format.into(), format.named_bias, &list), Err(3));
            let [mut rows, mut columns] = [[7], [7]];
            let totals: [&mut [u64]; 2] = [&mut rows, &mut columns];
            let mut answer = [0; 32];
            let bias = format.named_bias;
            let code = raw::table(format.into(), bias, PLAIN, [0, 0], &[], totals, &mut answer);
            assert_eq!(code, 3);
        }
    }
    assert_eq!(Totals::<X87>::new().format(), Format::EXTENDED);
    assert_eq!(
        (Format::EXTENDED.digits(), Format::EXTENDED.bias()),
        (64, 16_383)
    );
    assert_eq!(<[u64; 3]>::from(Format::EXTENDED), EXTENDED);
}

#[test]
fn lists_and_bytes_give_one_record() {
    let list = [1.5, -0.25, 1e300, -1e300].map(X87::from);
    let bytes = X87::bytes_of(&list);
    let totals = Totals::<X87>::new();
    let record = sum(&list).unwrap();
    assert_eq!(
        (record.result, record.flags),
        (X87::from(1.25), Flags::NONE)
    );
    assert_eq!(record.result.to_f64(), Some(1.25));
    assert_eq!(totals.sum_bytes(Summand::Value, bytes), Ok(record));
    let magnitudes = magnitude_sum(&list[..2]).unwrap();
    assert_eq!(magnitudes.result, X87::from(1.75));
    let squares = square_sum(&list[..2]).unwrap();
    assert_eq!(squares.result, X87::from(2.3125));
    assert_eq!(dot(&list[..2], &list[..2]), Ok(squares));
    assert_eq!(totals.dot_bytes(&bytes[..20], &bytes[..20]), Ok(squares));
    // 2.3125 is 1.00101 in base 2, times 2
    assert_eq!(
        squares.to_string(),
        "0x40009400000000000000, flags NONE, passes 1"
    );

    let uneven = |list| Err(Refusal::UnevenLength { list });
    assert_eq!(totals.sum_bytes(Summand::Value, &bytes[..8]), uneven(None));
    assert_eq!(totals.sum_bytes(Summand::Value, &bytes[..16]), uneven(None));
    let left = totals.dot_bytes(&bytes[..8], &bytes[..8]);
    assert_eq!(left, uneven(Some(List::Left)));
    let right = totals.dot_bytes(&bytes[..40], &bytes[..32]);
    assert_eq!(right, uneven(Some(List::Right)));
    assert_eq!(dot(&list, &list[..3]), Err(Refusal::DifferentLengths));
}

/// A whole number of 64 bits or fewer, times 2^at.
fn scaled(n: i128, at: i32) -> X87 {
    let magnitude = n.unsigned_abs() as u64;
    if magnitude == 0 {
        return ZERO;
    }
    let moved = magnitude.leading_zeros();
    let field = (16_383 + 63 + at - moved as i32) as u16;
    X87::from_parts(if n < 0 { 0x8000 } else { 0 } | field, magnitude << moved)
}

/// The exact number n, times 2^at, rounded to 64 digits. Modes 0, 3, 4 and 5.
fn rounded(n: i128, at: i32, mode: Rounding) -> Wanted {
    let magnitude = n.unsigned_abs();
    let spare = (128 - magnitude.leading_zeros()).saturating_sub(64);
    let (kept, lost) = (magnitude >> spare, magnitude & ((1 << spare) - 1));
    if lost == 0 {
        return Wanted(
            scaled(
                if n < 0 { -(kept as i128) } else { kept as i128 },
                at + spare as i32,
            ),
            0,
            1,
            Side::Equal,
        );
    }
    let half = 1 << (spare - 1);
    let away = match mode {
        Rounding::TiesToEven => lost > half || (lost == half && kept % 2 == 1),
        Rounding::TowardPositive => n > 0,
        Rounding::TowardNegative => n < 0,
        _ => false,
    };
    let mut digits = kept + u128::from(away);
    let mut at = at + spare as i32;
    if digits == 1 << 64 {
        (digits, at) = (1 << 63, at + 1);
    }
    let result = scaled(
        if n < 0 {
            -(digits as i128)
        } else {
            digits as i128
        },
        at,
    );
    let flags = if away { 0x50 } else { 0x10 };
    let side = if away == (n > 0) {
        Side::Above
    } else {
        Side::Below
    };
    Wanted(result, flags, 1, side)
}

/// Values of up to 29 bits at 30 places: sums, squares and products fit 128 bits, wherever they
/// lie.
#[test]
fn whole_numbers() {
    let mut draw = Draw(10);
    for round in 0..4000 {
        let at = [0, -30, 16_000, -16_300, 7000][round % 5];
        let count = 1 + draw.below(12) as usize;
        let mut drawn = || -> Vec<(i128, i32)> {
            let one = |draw: &mut Draw| {
                let bits = 1 + draw.below(29);
                let n = draw.below(1 << bits) as i128;
                (
                    if draw.below(2) == 0 { n } else { -n },
                    draw.below(31) as i32,
                )
            };
            (0..count).map(|_| one(&mut draw)).collect()
        };
        let (left, right) = (drawn(), drawn());
        let list = |of: &[(i128, i32)], at: i32| -> Vec<X87> {
            of.iter().map(|&(n, k)| scaled(n, at + k)).collect()
        };
        let mode = [0, 3, 4, 5][round % 4];
        let settings = Settings::new().with_rounding(ROUNDINGS[mode]);
        let expect = |of: Of<'_>, exact: i128, at: i32| {
            if exact != 0 {
                check(of, settings, rounded(exact, at, ROUNDINGS[mode]));
            }
        };
        let values = list(&left, at);
        let exact: i128 = left.iter().map(|&(n, k)| n << k).sum();
        expect(Of::Sum(Summand::Value, &values), exact, at);
        let exact: i128 = left.iter().map(|&(n, k)| n.abs() << k).sum();
        expect(Of::Sum(Summand::Magnitude, &values), exact, at);

        // near to 1, where squares and products are in range
        let at = at / 4;
        let (values, others) = (list(&left, at), list(&right, -at));
        let exact: i128 = left.iter().map(|&(n, k)| (n * n) << (2 * k)).sum();
        expect(Of::Sum(Summand::Square, &values), exact, 2 * at);
        let pairs = left.iter().zip(&right);
        let exact: i128 = pairs.map(|(&(n, k), &(m, j))| (n * m) << (k + j)).sum();
        expect(Of::Dot(&values, &others), exact, 0);
    }
}

/// Any bits but those of NaNs: every order has one record.
#[test]
fn every_order() {
    let mut draw = Draw(80);
    for round in 0..300 {
        let mut list: Vec<X87> = (0..2 + draw.below(9))
            .map(|_| {
                let spread = if round % 2 == 0 { 0x7ffe } else { 100 };
                let head = (draw.below(spread) + 1) as u16 | (draw.below(2) << 15) as u16;
                X87::from_parts(head, draw.next() | LEADING)
            })
            .collect();
        if round % 7 == 0 {
            list.push(unsupported()[draw.below(32) as usize]);
        }
        let totals = SUMMANDS.map(|u| Totals::<X87>::new().sum_of(u, &list).unwrap());
        let pairs = dot(&list, &list).unwrap();
        for _ in 0..5 {
            let k = draw.below(list.len() as u64) as usize;
            list.rotate_left(k);
            list.reverse();
            for (u, total) in SUMMANDS.into_iter().zip(totals) {
                assert_eq!(Totals::<X87>::new().sum_of(u, &list), Ok(total));
            }
            assert_eq!(dot(&list, &list), Ok(pairs));
        }
    }
}
