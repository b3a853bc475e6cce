//! Both entries with good, refused and empty input. Every byte of the buffer is looked at. The
//! expectations are those of docs/SPECIFICATION.md: its table of refusals, its layout of the
//! answer, its careers C1 to C12, and small exact sums.
use fermuzhai::raw::{bytes, dot, sum, Format, Settings};

const BINARY64: Format = [0, 11, 64];
const BINARY16: Format = [0, 5, 16];
const PLAIN: Settings = [0; 8];
const TOWARD_NEGATIVE: Settings = [4, 0, 0, 0, 0, 0, 0, 0];
const TOWARD_ZERO: Settings = [5, 0, 0, 0, 0, 0, 0, 0];
const UNTOUCHED: u8 = 0xa5;
const LIMIT: usize = 1 << 28;

fn one(x: f64) -> u64 {
    x.to_bits()
}

/// 2^n as an encoding of binary64, for a normal number.
fn power(n: i64) -> u64 {
    ((n + 1023) as u64) << 52
}

/// What an accepted call writes.
struct Written {
    result: u64,
    flags: u8,
    passes: u64,
    side: u8,
}

const EQUAL: u8 = 0;
const BELOW: u8 = 1;
const ABOVE: u8 = 2;
const NO_COMPARISON: u8 = 3;

/// An accepted call: 0 comes back, bytes 0 to 23 are result, flags, a zero, the side, five zeros,
/// passes, and the rest is as it was.
fn accepted(code: u64, buffer: &[u8], wanted: Written) {
    let Written {
        result,
        flags,
        passes,
        side,
    } = wanted;
    assert_eq!(code, 0);
    assert_eq!(buffer[0..8], result.to_le_bytes(), "result");
    assert_eq!(
        buffer[8..16],
        [flags, 0, side, 0, 0, 0, 0, 0],
        "flags, side and zeros"
    );
    assert_eq!(buffer[16..24], passes.to_le_bytes(), "passes");
    assert!(buffer[24..].iter().all(|&b| b == UNTOUCHED), "later bytes");
}

fn of(result: u64, flags: u8, passes: u64, side: u8) -> Written {
    Written {
        result,
        flags,
        passes,
        side,
    }
}

fn refused(code: u64, buffer: &[u8], number: u64, place: u64) {
    assert_eq!(code, number + 256 * place);
    assert!(buffer.iter().all(|&b| b == UNTOUCHED), "nothing is written");
}

fn check_sum(f: Format, c: Settings, u: u64, values: &[u64], wanted: Written) {
    let mut buffer = [UNTOUCHED; 40];
    let code = sum(f, c, u, &bytes(values), &mut buffer);
    accepted(code, &buffer, wanted);
}

fn check_sum_refused(
    f: Format,
    c: Settings,
    u: u64,
    values: &[u8],
    room: usize,
    number: u64,
    place: u64,
) {
    let mut buffer = vec![UNTOUCHED; room];
    let code = sum(f, c, u, values, &mut buffer);
    refused(code, &buffer, number, place);
}

fn check_dot(f: Format, c: Settings, left: &[u64], right: &[u64], wanted: Written) {
    let mut buffer = [UNTOUCHED; 40];
    let code = dot(f, c, &bytes(left), &bytes(right), &mut buffer);
    accepted(code, &buffer, wanted);
}

fn check_dot_refused(
    f: Format,
    c: Settings,
    left: &[u8],
    right: &[u8],
    room: usize,
    number: u64,
    place: u64,
) {
    let mut buffer = vec![UNTOUCHED; room];
    let code = dot(f, c, left, right, &mut buffer);
    refused(code, &buffer, number, place);
}

#[test]
fn careers() {
    let minus_zero = 1 << 63;
    let largest = 0x7fef_ffff_ffff_ffff;
    let infinity = 0x7ff0_0000_0000_0000;
    let quiet = 0x7ff8_0000_0000_0000;
    let opposite = power(1000) | minus_zero;
    let c1 = one(1.0);
    #[rustfmt::skip]
    let careers: [(Settings, u64, &[u64], Written); 12] = [
        (TOWARD_NEGATIVE, 0, &[], of(0, 0x00, 0, EQUAL)),
        (PLAIN, 0, &[minus_zero], of(minus_zero, 0x00, 0, EQUAL)),
        (TOWARD_NEGATIVE, 0, &[0, minus_zero], of(minus_zero, 0x00, 0, EQUAL)),
        (PLAIN, 0, &[c1, one(-1.0)], of(0, 0x00, 1, EQUAL)),
        (PLAIN, 0, &[power(1000), c1, opposite], of(c1, 0x00, 2, EQUAL)),
        (PLAIN, 0, &[c1, power(-53)], of(c1, 0x10, 1, BELOW)),
        (PLAIN, 0, &[c1, power(-53), power(-1000)], of(c1 + 1, 0x50, 2, ABOVE)),
        (PLAIN, 0, &[largest, largest], of(infinity, 0x54, 1, NO_COMPARISON)),
        (TOWARD_ZERO, 0, &[largest, largest], of(largest, 0x14, 1, BELOW)),
        (PLAIN, 0, &[1], of(1, 0xa0, 1, EQUAL)),
        (PLAIN, 2, &[power(-600)], of(0, 0x38, 1, BELOW)),
        (PLAIN, 1, &[infinity | minus_zero, quiet], of(infinity, 0x00, 0, NO_COMPARISON)),
    ];
    for (settings, summand, values, wanted) in careers {
        check_sum(BINARY64, settings, summand, values, wanted);
    }
}

/// The side is one of numbers, not of magnitudes; it is taken after denormals-are-zero, and of the
/// result after flush-to-zero.
#[test]
fn sides() {
    const TOWARD_POSITIVE: Settings = [3, 0, 0, 0, 0, 0, 0, 0];
    const FLUSH: Settings = [0, 0, 0, 0, 1, 0, 0, 0];
    const DENORMALS_ARE_ZERO: Settings = [0, 0, 0, 0, 0, 1, 0, 0];
    const E4M3: Format = [1, 4, 8];
    #[rustfmt::skip]
    let rows: [(Format, Settings, &[u64], Written); 9] = [
        (BINARY16, TOWARD_POSITIVE, &[0x3c00, 0x1000], of(0x3c01, 0x50, 1, ABOVE)),
        (BINARY16, TOWARD_POSITIVE, &[0xbc00, 0x9000], of(0xbc00, 0x10, 1, ABOVE)),
        (BINARY16, TOWARD_NEGATIVE, &[0xbc00, 0x9000], of(0xbc01, 0x50, 1, BELOW)),
        (BINARY16, TOWARD_ZERO, &[0x7bff, 0x7bff], of(0x7bff, 0x14, 1, BELOW)),
        (BINARY16, TOWARD_ZERO, &[0xfbff, 0xfbff], of(0xfbff, 0x14, 1, ABOVE)),
        (BINARY16, PLAIN, &[0x7bff, 0x7bff], of(0x7c00, 0x54, 1, NO_COMPARISON)),
        (E4M3, PLAIN, &[0x7e, 0x7e], of(0x7f, 0x14, 1, NO_COMPARISON)),
        (BINARY64, FLUSH, &[1 << 63 | 1], of(1 << 63, 0xb8, 1, ABOVE)),
        (BINARY64, DENORMALS_ARE_ZERO, &[one(1.0), 1], of(one(1.0), 0x80, 1, EQUAL)),
    ];
    for (format, settings, values, wanted) in rows {
        check_sum(format, settings, 0, values, wanted);
    }
}

#[test]
fn dots() {
    #[rustfmt::skip]
    let rows: [(&[u64], &[u64], Written); 5] = [
        (&[], &[], of(0, 0, 0, EQUAL)),
        (&[one(1.5), one(2.0)], &[one(2.0), one(0.25)], of(one(3.5), 0, 1, EQUAL)),
        (&[one(3.0), one(-3.0)], &[one(7.0), one(7.0)], of(0, 0, 1, EQUAL)),
        (&[power(-600)], &[power(-600) | 1 << 63], of(1 << 63, 0x38, 1, ABOVE)),
        // an infinity times zero is invalid
        (&[one(f64::INFINITY)], &[0], of(0x7ff8_0000_0000_0000, 0x01, 0, NO_COMPARISON)),
    ];
    for (left, right, wanted) in rows {
        check_dot(BINARY64, PLAIN, left, right, wanted);
    }
}

#[test]
fn refusals_of_a_sum() {
    let two = bytes(&[one(1.0), one(2.0)]);
    check_sum_refused(BINARY64, PLAIN, 0, &two[..7], 24, 1, 0);
    check_sum_refused(BINARY64, PLAIN, 0, &two, 23, 2, 0);
    check_sum_refused([5, 11, 64], PLAIN, 0, &two, 24, 3, 0);
    check_sum_refused(BINARY64, [8, 0, 0, 0, 0, 0, 0, 0], 0, &two, 24, 4, 0);
    check_sum_refused(BINARY64, [0, 0, 0, 0, 0, 0, 0, 54], 0, &two, 24, 4, 0);
    check_sum_refused(BINARY64, PLAIN, 3, &two, 24, 4, 0);
    check_sum_refused(BINARY16, PLAIN, 0, &bytes(&[1, 1 << 16, 1 << 63]), 24, 7, 1);
    // the lower number comes first
    check_sum_refused([5, 11, 64], [8; 8], 3, &two[..7], 23, 1, 0);
    check_sum_refused([5, 11, 64], [8; 8], 3, &two, 23, 2, 0);
    check_sum_refused([5, 11, 64], [8; 8], 3, &two, 24, 3, 0);
    check_sum_refused(BINARY16, [8; 8], 3, &two, 24, 4, 0);
    check_sum_refused(BINARY64, PLAIN, 0, &[], 0, 2, 0);
}

#[test]
fn refusals_of_a_dot() {
    let one_value = bytes(&[one(1.0)]);
    let two = bytes(&[one(1.0), one(2.0)]);
    check_dot_refused(BINARY64, PLAIN, &two, &two[..15], 24, 1, 0);
    check_dot_refused(BINARY64, PLAIN, &two[..9], &two, 24, 1, 0);
    check_dot_refused(BINARY64, PLAIN, &two, &two, 23, 2, 0);
    check_dot_refused([0, 1, 64], PLAIN, &two, &two, 24, 3, 0);
    check_dot_refused(BINARY64, [0, 2, 0, 0, 0, 0, 0, 0], &two, &two, 24, 4, 0);
    check_dot_refused(BINARY64, PLAIN, &two, &one_value, 24, 5, 0);
    check_dot_refused(
        BINARY16,
        PLAIN,
        &bytes(&[1, 2, 1 << 20]),
        &bytes(&[1 << 16, 1, 1]),
        24,
        7,
        2,
    );
    check_dot_refused(
        BINARY16,
        PLAIN,
        &bytes(&[1, 2, 3]),
        &bytes(&[1, 1 << 16, 1 << 17]),
        24,
        7,
        1,
    );
    check_dot_refused(BINARY16, PLAIN, &two, &one_value, 24, 5, 0);
}

/// Zeros that nobody wrote take no memory, however many are read.
#[test]
fn as_many_zeros_as_there_may_be_and_one_more() {
    let mut more = vec![0u8; 8 * (LIMIT + 1) + 7];
    let (ragged, zeros) = (&more[..], &more[..8 * LIMIT]);
    let mut buffer = [UNTOUCHED; 24];
    let code = sum(BINARY64, PLAIN, 0, zeros, &mut buffer);
    accepted(code, &buffer, of(0, 0, 0, EQUAL));
    // 1 to 5 come before 6, and 6 before 7
    check_sum_refused(BINARY64, PLAIN, 0, ragged, 24, 1, 0);
    let longer = &more[..8 * (LIMIT + 1)];
    check_sum_refused(BINARY64, PLAIN, 0, longer, 23, 2, 0);
    let (no_format, no_rounding) = ([5, 11, 64], [8, 0, 0, 0, 0, 0, 0, 0]);
    check_sum_refused(no_format, PLAIN, 0, longer, 24, 3, 0);
    check_dot_refused(no_format, PLAIN, longer, longer, 24, 3, 0);
    check_sum_refused(BINARY64, no_rounding, 0, longer, 24, 4, 0);
    check_sum_refused(BINARY64, PLAIN, 3, longer, 24, 4, 0);
    check_dot_refused(BINARY64, no_rounding, longer, longer, 24, 4, 0);
    check_dot_refused(BINARY64, PLAIN, longer, zeros, 24, 5, 0);
    check_sum_refused(BINARY64, PLAIN, 0, longer, 24, 6, 0);
    check_dot_refused(BINARY64, PLAIN, longer, longer, 24, 6, 0);
    more[7] = 0xff;
    let stray = &more[..8 * (LIMIT + 1)];
    check_sum_refused(BINARY16, PLAIN, 0, stray, 24, 6, 0);
    check_dot_refused(BINARY16, PLAIN, stray, stray, 24, 6, 0);
}

#[test]
fn a_million_pairs_of_zeros_and_one_more() {
    for count in [1 << 20, (1 << 20) + 1] {
        let zeros = vec![0u8; 8 * count];
        let mut buffer = [UNTOUCHED; 24];
        let code = dot(BINARY64, PLAIN, &zeros, &zeros, &mut buffer);
        accepted(code, &buffer, of(0, 0, 0, EQUAL));
    }
}
