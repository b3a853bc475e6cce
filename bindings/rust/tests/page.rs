//! Career pages, through `raw` and through `Page`. The expectations are a model of the page,
//! written from its layout in docs/SPECIFICATION.md; exact sums in whole numbers of 128 bits; and,
//! under settings and over NaNs and infinities, what the plain sum gives for the span as a list of
//! its own.

mod draw;

use std::collections::BTreeSet;
use std::ops::Bound::{self, Excluded, Included, Unbounded};

use draw::Draw;
use fermuzhai::{raw, Flags, Page, Refusal, Rounding, Settings, Side, Summand, Tininess, Totals};

const LIMIT: usize = 1 << 28;
/// The most values of a page with a short trailer.
const MOST_SHORT: usize = 1 << 20;
const UNTOUCHED: u8 = 0xa5;
const PLAIN: raw::Settings = [0; 8];
const BINARY64: raw::Format = [0, 11, 64];
const INFINITY: u64 = 0x7ff << 52;
const MINUS: u64 = 1 << 63;
const FRACTION: u64 = (1 << 52) - 1;

/// Zeros, the least and the greatest subnormal, the least normal number, the greatest, infinities,
/// quiet and signaling NaNs, each of either sign.
const ODD: [u64; 8] = [
    0,
    1,
    FRACTION,
    1 << 52,
    INFINITY - 1,
    INFINITY,
    INFINITY | 1 << 51,
    INFINITY | 1,
];

// ---- the model

/// The positions of the highest and of the lowest set bit of a number other than 0, or the class of
/// any other value. The bit worth 2^k stands at k.
fn bits_or_class(word: u64) -> Result<(i32, i32), u8> {
    let (field, fraction) = (word >> 52 & 0x7ff, word & FRACTION);
    let (significand, unit) = match (field, fraction) {
        (0x7ff, 0) => return Err(2),
        (0x7ff, _) => return Err(1),
        (0, 0) => return Err(4),
        (0, _) => (fraction, -1074),
        _ => (fraction + (1 << 52), field as i32 - 1075),
    };
    let highest = 63 - significand.leading_zeros() as i32;
    let lowest = significand.trailing_zeros() as i32;
    Ok((unit + highest, unit + lowest))
}

fn summary(group: &[u64]) -> Vec<u8> {
    let (mut highest, mut lowest, mut class) = (None, None, 0);
    for &word in group {
        match bits_or_class(word) {
            Ok((high, low)) => {
                highest = highest.max(Some(high));
                lowest = Some(lowest.map_or(low, |least: i32| least.min(low)));
            }
            Err(kind) => class |= kind,
        }
    }
    let positions = [highest, lowest].map(|at| at.unwrap_or(0).to_le_bytes());
    [positions.as_flattened(), &[class, 0, 0, 0]].concat()
}

fn short_trailer(offset: u32, count: u32) -> Vec<u8> {
    let numbers = [offset, count, 64].map(u32::to_le_bytes);
    [numbers.as_flattened(), b"CPG1"].concat()
}

fn long_trailer(offset: u64, count: u64) -> Vec<u8> {
    let numbers = [offset, count].map(u64::to_le_bytes);
    [numbers.as_flattened(), &[64, 0, 0, 0], b"CPG2"].concat()
}

/// The values and their summaries.
fn body_of(words: &[u64]) -> Vec<u8> {
    let mut body: Vec<u8> = words.iter().flat_map(|word| word.to_le_bytes()).collect();
    body.extend(words.chunks(64).flat_map(summary));
    body
}

fn page_of(words: &[u64]) -> Vec<u8> {
    let count = words.len();
    let mut page = body_of(words);
    page.extend(if count > MOST_SHORT {
        long_trailer(8 * count as u64, count as u64)
    } else {
        short_trailer(8 * count as u32, count as u32)
    });
    page
}

/// The values of a page: of bytes that are what would have been written for the values that they
/// count.
fn opened(bytes: &[u8]) -> Option<Vec<u64>> {
    let count = if bytes.ends_with(b"CPG2") {
        u64::from_le_bytes(bytes.last_chunk::<16>()?[..8].try_into().unwrap()) as usize
    } else {
        u32::from_le_bytes(bytes.last_chunk::<12>()?[..4].try_into().unwrap()) as usize
    };
    if count > LIMIT || bytes.len() < 8 * count {
        return None;
    }
    let words = bytes[..8 * count].chunks_exact(8);
    let words: Vec<u64> = words
        .map(|word| u64::from_le_bytes(word.try_into().unwrap()))
        .collect();
    (page_of(&words) == bytes).then_some(words)
}

// ---- what is checked of each page

fn floats(words: &[u64]) -> Vec<f64> {
    words.iter().map(|&word| f64::from_bits(word)).collect()
}

/// Opens or is refused as the model has it, through `raw` too.
fn check_bytes(bytes: &[u8]) {
    let mut answer = [UNTOUCHED; 24];
    let code = raw::page_sum(bytes, 0, 0, PLAIN, 0, &mut answer);
    match opened(bytes) {
        Some(words) => {
            assert_eq!(code, 0);
            let page = Page::open(bytes).unwrap();
            assert_eq!(
                (page.len(), page.is_empty()),
                (words.len(), words.is_empty())
            );
            assert!(page.values(..).unwrap().map(f64::to_bits).eq(words));
        }
        None => check_no_page(bytes),
    }
}

fn check_no_page(bytes: &[u8]) {
    assert_eq!(Page::open(bytes), Err(Refusal::NotAPage));
    let mut answer = [UNTOUCHED; 24];
    assert_eq!(raw::page_sum(bytes, 0, 0, PLAIN, 0, &mut answer), 12);
    assert_eq!(answer, [UNTOUCHED; 24]);
}

/// The page of the values is the model's on every way, and opens; a destination that is too short
/// stays as it was, and so does what lies behind the page.
fn check_written(words: &[u64]) -> Vec<u8> {
    let (wanted, values) = (page_of(words), floats(words));
    let length = wanted.len();
    assert_eq!(Page::length_of(words.len()), Some(length));
    let page = Page::write(&values).unwrap();
    assert!(page == wanted, "{words:x?}");
    assert_eq!(page.capacity(), length);
    for beyond in [0, 1, 7, 24] {
        let mut destination = vec![UNTOUCHED; length + beyond];
        assert_eq!(Page::write_into(&values, &mut destination), Ok(length));
        assert!(destination[..length] == wanted, "{words:x?}");
        assert_eq!(destination[length..], vec![UNTOUCHED; beyond]);
    }
    for room in [0, 1, 15, length - 16, length - 1] {
        let mut destination = vec![UNTOUCHED; room];
        assert_eq!(raw::page_write(words, &mut destination), Err(2));
        let refused = Page::write_into(&values, &mut destination);
        assert_eq!(refused, Err(Refusal::ShortBuffer));
        assert!(destination.iter().all(|&byte| byte == UNTOUCHED));
    }
    check_bytes(&page);
    page
}

/// A span through `raw` and through `Page`: the answer of the plain sum of its values, byte for
/// byte.
fn check_span(page: &[u8], words: &[u64], start: usize, end: usize) {
    let span = raw::bytes(&words[start..end]);
    let opened = Page::open(page).unwrap();
    for (rounding, settings) in [
        (Rounding::TiesToEven, Settings::new()),
        (
            Rounding::TowardNegative,
            Settings::new().with_denormals_are_zero(true),
        ),
        (Rounding::ToOdd, Settings::new().with_precision(24)),
        (
            Rounding::AwayFromZero,
            Settings::new().with_tininess(Tininess::AfterRounding),
        ),
    ] {
        let settings = settings.with_rounding(rounding);
        let totals = Totals::<f64>::new().with_settings(settings);
        for summand in [Summand::Value, Summand::Magnitude, Summand::Square] {
            let (mut of_page, mut of_list) = ([UNTOUCHED; 27], [UNTOUCHED; 27]);
            let (c, u) = (settings.into(), summand as u64);
            assert_eq!(raw::page_sum(page, start, end, c, u, &mut of_page), 0);
            assert_eq!(raw::sum(BINARY64, c, u, &span, &mut of_list), 0);
            assert_eq!(of_page, of_list, "{start}..{end}");
            let wanted = totals.sum_of(summand, &floats(&words[start..end]));
            assert_eq!(totals.page_sum(summand, &opened, start..end), wanted);
        }
    }
}

/// Values of one sort: any words, odd ones, subnormal, near to each other, mostly zeros, or not
/// finite.
fn group(draw: &mut Draw, count: usize) -> Vec<u64> {
    let (sort, exponent) = (draw.below(6), 1 + draw.below(2030));
    let digits = FRACTION & (u64::MAX << draw.below(52));
    let one = |draw: &mut Draw| {
        let fraction = draw.next() & digits;
        match sort {
            0 => draw.next(),
            1 => ODD[draw.below(8) as usize],
            2 => fraction,
            3 => (exponent + draw.below(8)) << 52 | fraction,
            4 if draw.below(20) == 0 => exponent << 52 | fraction,
            4 => 0,
            _ if draw.below(2) == 0 => INFINITY,
            _ => INFINITY | fraction,
        }
    };
    (0..count)
        .map(|_| one(draw) | draw.below(2) << 63)
        .collect()
}

/// Each 64 of one sort.
fn words(draw: &mut Draw, count: usize) -> Vec<u64> {
    let mut list = Vec::new();
    while list.len() < count {
        list.extend(group(draw, (count - list.len()).min(64)));
    }
    list
}

// ---- pages

/// What the layout gives by hand: no values; 3.0; and of every class, from 2^1 down to −2^−1074.
#[test]
fn by_hand() {
    assert_eq!(check_written(&[]), *b"\0\0\0\0\0\0\0\0\x40\0\0\0CPG1");
    let three = check_written(&[3f64.to_bits()]);
    assert_eq!(
        three,
        *b"\0\0\0\0\0\0\x08\x40\x01\0\0\0\0\0\0\0\0\0\0\0\x08\0\0\0\x01\0\0\0\x40\0\0\0CPG1"
    );
    let [a, b, c, d] = (-1074i32).to_le_bytes();
    let every = [
        1.5f64.to_bits(),
        MINUS | 1,
        3f64.to_bits(),
        INFINITY,
        u64::MAX,
        0,
    ];
    let every = check_written(&every);
    assert_eq!(every[48..60], [1, 0, 0, 0, a, b, c, d, 7, 0, 0, 0]);
    // 64 zeros and a 1: the second group has one value
    let mut two = vec![0; 64];
    two.push(1f64.to_bits());
    let two = check_written(&two);
    assert_eq!(two[520..532], [0, 0, 0, 0, 0, 0, 0, 0, 4, 0, 0, 0]);
    assert_eq!(two[532..544], [0; 12]);
    assert_eq!(two[544..552], [8, 2, 0, 0, 65, 0, 0, 0]);
}

#[test]
fn pages_are_those_of_the_model() {
    let mut draw = Draw(8);
    for one in ODD {
        check_written(&[one]);
        check_written(&[MINUS | one]);
        check_written(&[one; 65]);
    }
    for count in [0, 1, 2, 62, 63, 64, 65, 66, 127, 128, 129, 192, 200, 480] {
        for _ in 0..20 {
            check_written(&words(&mut draw, count));
        }
    }
    // whose summaries are of many kinds
    let mut seen = BTreeSet::new();
    for _ in 0..2000 {
        let count = 1 + draw.below(5) as usize;
        let list = group(&mut draw, count);
        assert_eq!(Page::write(&floats(&list)).unwrap(), page_of(&list));
        seen.insert(summary(&list));
    }
    assert!(seen.len() > 500, "{}", seen.len());
}

/// The longest page with a short trailer, and the shortest with a long one.
#[test]
fn either_trailer() {
    let list = words(&mut Draw(20), MOST_SHORT + 1);
    for (count, length, trailer) in [(MOST_SHORT, 8_585_232, 16), (MOST_SHORT + 1, 8_585_260, 24)] {
        let list = &list[..count];
        let mut page = check_written(list);
        assert_eq!(page.len(), length);
        let opened = Page::open(&page).unwrap();
        for (start, end) in [(0, count), (count - 100, count), (count, count)] {
            let wanted = fermuzhai::sum(&floats(&list[start..end]));
            assert_eq!(opened.sum(start..end), wanted);
        }
        assert_eq!(opened.sum(..count + 1), Err(Refusal::BadSpan));
        // the first and the last summary, the least and the greatest byte of each number of the
        // trailer, the last letter
        let behind = length - trailer;
        let number = (trailer - 8) / 2;
        for at in [
            8 * count,
            behind - 12,
            behind,
            behind + number - 1,
            behind + number,
            behind + 2 * number - 1,
            length - 8,
            length - 5,
            length - 1,
        ] {
            page[at] ^= 1;
            check_no_page(&page);
            page[at] ^= 1;
        }
    }
}

/// The letters of one trailer over the numbers of the other; and a trailer that is right but for
/// the range of its count.
#[test]
fn the_wrong_trailer() {
    let list = words(&mut Draw(21), MOST_SHORT + 1);
    for count in [0, 1, 64, 65, MOST_SHORT, MOST_SHORT + 1] {
        let body = body_of(&list[..count]);
        let (offset, number) = (8 * count as u64, count as u64);
        let right = [
            long_trailer(offset, number),
            short_trailer(offset as u32, count as u32),
        ];
        let [long, short] = right.map(|trailer| [&body[..], &trailer].concat());
        let (page, other) = if count > MOST_SHORT {
            (long, short)
        } else {
            (short, long)
        };
        assert!(Page::open(&page).is_ok());
        check_no_page(&other);
        for mut bytes in [page, other] {
            let last = bytes.len() - 1;
            bytes[last] ^= b'1' ^ b'2';
            check_no_page(&bytes);
        }
        // counts that are right modulo 2^32, or whose bytes are modulo 2^64
        for wrong in [1 << 32, 1 << 60, 1 << 61, 1 << 63] {
            let wrong = number + wrong;
            check_no_page(&[&body[..], &long_trailer(offset, wrong)].concat());
            let trailer = long_trailer(wrong.wrapping_mul(8), wrong);
            check_no_page(&[&body[..], &trailer].concat());
        }
    }
}

/// The page of so many zeros. Those that nobody wrote take no memory, and a summary for each 64 of
/// them does.
fn page_of_zeros(count: usize) -> Vec<u8> {
    let trailer = long_trailer(8 * count as u64, count as u64);
    let behind = 8 * count + 12 * count.div_ceil(64);
    let mut page = vec![0; behind + 24];
    for summary in page[8 * count..behind].chunks_exact_mut(12) {
        summary[8] = 4;
    }
    page[behind..].copy_from_slice(&trailer);
    page
}

/// As many values as there may be; and one more, which no page holds.
#[test]
fn the_most_values() {
    assert!(page_of_zeros(MOST_SHORT + 1) == page_of(&vec![0; MOST_SHORT + 1]));
    let mut page = page_of_zeros(LIMIT);
    assert_eq!(page.len(), 2_197_815_320);
    assert_eq!(Page::length_of(LIMIT), Some(page.len()));
    // two numbers, the first and the last value
    for (at, value) in [(0, 2.5f64), (LIMIT - 1, -4.0)] {
        let mut group = [0; 64];
        group[at % 64] = value.to_bits();
        page[8 * at..][..8].copy_from_slice(&value.to_le_bytes());
        page[8 * LIMIT + 12 * (at / 64)..][..12].copy_from_slice(&summary(&group));
    }
    let opened = Page::open(&page).unwrap();
    assert_eq!(opened.len(), LIMIT);
    assert_eq!(opened.sum(..100).unwrap().result, 2.5);
    assert_eq!(opened.sum(LIMIT - 100..).unwrap().result, -4.0);
    assert_eq!(opened.sum(..=LIMIT), Err(Refusal::BadSpan));
    check_no_page(&page_of_zeros(LIMIT + 1));
}

/// One value more than there may be: 2 comes before 6. The zeros are neither read nor written.
#[test]
fn too_many_values() {
    let values = vec![0.0; LIMIT + 1];
    assert_eq!(Page::length_of(LIMIT + 1), None);
    assert_eq!(Page::write(&values), Err(Refusal::TooManyElements));
    // a group more
    let length = 2_197_815_320 + 8 + 12;
    let mut destination = vec![0; length + 1];
    let ends = [0, 8 * LIMIT, length - 24, length - 1, length];
    for (room, refusal) in [
        (0, Refusal::ShortBuffer),
        (length - 1, Refusal::ShortBuffer),
        (length, Refusal::TooManyElements),
        (length + 1, Refusal::TooManyElements),
    ] {
        for at in ends {
            destination[at] = UNTOUCHED;
        }
        let into = Page::write_into(&values, &mut destination[..room]);
        assert_eq!(into, Err(refusal));
        assert_eq!(ends.map(|at| destination[at]), [UNTOUCHED; 5]);
    }
}

#[test]
fn lengths() {
    // 480 months: 3840, eight groups of 12, 16
    for (count, length) in [(0, 16), (1, 36), (64, 540), (65, 560), (480, 3952)] {
        assert_eq!(Page::length_of(count), Some(length));
    }
    for (count, length) in [(MOST_SHORT, 8_585_232), (MOST_SHORT + 1, 8_585_260)] {
        assert_eq!(Page::length_of(count), Some(length));
    }
    for count in [LIMIT + 1, 1 << 60, usize::MAX / 8, usize::MAX] {
        assert_eq!(Page::length_of(count), None);
    }
}

/// At each of eight addresses in turn.
#[test]
fn a_page_lies_at_any_address() {
    let list = words(&mut Draw(3), 70);
    let (wanted, values) = (page_of(&list), floats(&list));
    let mut room = vec![UNTOUCHED; wanted.len() + 16];
    for at in 0..8 {
        room.fill(UNTOUCHED);
        assert_eq!(Page::write_into(&values, &mut room[at..]), Ok(wanted.len()));
        let (before, rest) = room.split_at(at);
        let (page, after) = rest.split_at(wanted.len());
        assert!(page == wanted);
        assert!([before, after]
            .concat()
            .iter()
            .all(|&byte| byte == UNTOUCHED));
        check_span(page, &list, 1, 69);
    }
}

// ---- what is no page

/// Every byte of the summaries and of the trailer, with each other value of a byte: 12. A changed
/// byte of a value: 12, or the page of the changed values.
#[test]
fn damage() {
    let mut draw = Draw(12);
    let mut still = 0;
    for count in [0, 1, 2, 63, 64, 65, 130] {
        let mut page = page_of(&words(&mut draw, count));
        for at in 0..page.len() {
            let was = page[at];
            let others: Vec<u8> = if at < 8 * count {
                vec![was ^ 1, was ^ 0x80, draw.next() as u8]
            } else {
                (0..=255).collect()
            };
            for other in others.into_iter().filter(|&other| other != was) {
                page[at] = other;
                if at < 8 * count {
                    check_bytes(&page);
                    still += u32::from(Page::open(&page).is_ok());
                } else {
                    check_no_page(&page);
                }
            }
            page[at] = was;
        }
        check_bytes(&page);
        // cut at either end, and longer
        for less in 1..=page.len() {
            check_no_page(&page[less..]);
            check_no_page(&page[..page.len() - less]);
        }
        for more in 1..=28 {
            check_no_page(&[&page[..], &vec![0; more]].concat());
            check_no_page(&[&vec![0; more], &page[..]].concat());
        }
    }
    assert!(still > 500, "{still}");
}

/// A summary of another group, of all values, of the values in another order.
#[test]
fn summaries_in_the_wrong_place() {
    let list: Vec<u64> = (0..128).map(|i| (1.0 + f64::from(i)).to_bits()).collect();
    let page = page_of(&list);
    let mut swapped = page.clone();
    swapped[1024..1048].rotate_left(12);
    check_no_page(&swapped);
    let mut whole = page.clone();
    whole[1024..1036].copy_from_slice(&summary(&list));
    check_no_page(&whole);
    // within a group the order plays no part in its summary
    let mut turned = page;
    turned[..512].rotate_left(8);
    check_bytes(&turned);
    assert!(Page::open(&turned).is_ok());
}

/// Bytes that nobody wrote as a page; then with the letters, the 64 and wild counts behind them.
#[test]
fn garbage() {
    let mut draw = Draw(9);
    let lengths = (0..=200).chain((0..40).map(|i| 300 + 97 * i));
    let counts = [
        0,
        1,
        2,
        64,
        65,
        1 << 20,
        (1 << 20) + 1,
        1 << 28,
        (1 << 28) + 1,
        1 << 29,
        1 << 31,
        u32::MAX.into(),
        1 << 32,
        1 << 60,
        1 << 61,
        (1 << 61) + 1,
        u64::MAX,
    ];
    for length in lengths {
        for _ in 0..4 {
            let bytes: Vec<u8> = (0..length).map(|_| draw.next() as u8).collect();
            check_no_page(&bytes);
            check_bytes(&vec![0; length]);
            if length < 16 {
                check_no_page(&b"\0\0\0\0\0\0\0\0\x40\0\0\0CPG1"[16 - length..]);
                continue;
            }
            let fitting = (length as u64 - 16) / 8;
            for count in counts.into_iter().chain([fitting]) {
                let mut bytes = bytes.clone();
                let offset = count.wrapping_mul(8);
                let trailer = short_trailer(offset as u32, count as u32);
                bytes[length - 16..].copy_from_slice(&trailer);
                // sixteen bytes that count nothing are the empty page
                check_bytes(&bytes);
                if (length, count as u32) != (16, 0) {
                    check_no_page(&bytes);
                }
                bytes[length - 1] = b'2';
                check_no_page(&bytes);
                // cut where there is no room for all of it
                let trailer = long_trailer(offset, count);
                let room = length.min(24);
                bytes[length - room..].copy_from_slice(&trailer[24 - room..]);
                check_no_page(&bytes);
            }
        }
    }
}

// ---- spans

/// A whole number counts 2^−40.
fn number(n: i128) -> f64 {
    // to the nearest, ties to even
    n as f64 * f64::from_bits((1023 - 40) << 52)
}

/// Every span of a page, beside the sum in whole numbers and the plain sum.
#[test]
fn every_span() {
    let mut draw = Draw(70);
    let mut inexact = 0;
    for count in [0, 1, 5, 64, 70] {
        let exact: Vec<i128> = (0..count)
            .map(|_| {
                let n = ((draw.next() >> (11 + draw.below(53))) as i128) << draw.below(61);
                if draw.below(2) == 0 {
                    n
                } else {
                    -n
                }
            })
            .collect();
        let list: Vec<f64> = exact.iter().map(|&n| number(n)).collect();
        let written = Page::write(&list).unwrap();
        let page = Page::open(&written).unwrap();
        assert_eq!(page.len(), count);
        for start in 0..=count {
            for end in start..=count {
                let n: i128 = exact[start..end].iter().sum();
                let record = page.sum(start..end).unwrap();
                assert_eq!(record.result.to_bits(), number(n).to_bits());
                let rounded = n as f64 as i128;
                assert_eq!(record.flags.contains(Flags::INEXACT), rounded != n);
                let side = match rounded.cmp(&n) {
                    std::cmp::Ordering::Less => Side::Below,
                    std::cmp::Ordering::Equal => Side::Equal,
                    std::cmp::Ordering::Greater => Side::Above,
                };
                assert_eq!(record.side, side);
                inexact += u32::from(rounded != n);
                assert_eq!(fermuzhai::sum(&list[start..end]), Ok(record));
                assert!(page
                    .values(start..end)
                    .unwrap()
                    .eq(list[start..end].iter().copied()));
            }
        }
    }
    assert!(inexact > 1000, "{inexact}");
}

/// Lists with NaNs, infinities, zeros and subnormals, under several settings.
#[test]
fn spans_are_lists_of_their_own() {
    let mut draw = Draw(13);
    for count in [1, 6, 63, 64, 65, 129] {
        let list = words(&mut draw, count);
        let page = page_of(&list);
        check_span(&page, &list, 0, count);
        for at in [0, count / 2, count] {
            check_span(&page, &list, at, at);
        }
        for _ in 0..60 {
            let end = draw.below(count as u64 + 1) as usize;
            let start = draw.below(end as u64 + 1) as usize;
            check_span(&page, &list, start, end);
        }
    }
}

/// Every kind of bounds that name a span, and every pair of indices about the page, in one of which
/// an end overflows.
#[test]
fn bounds() {
    let list = [0.5, 2.0, -1.0, 8.0];
    let written = Page::write(&list).unwrap();
    let page = Page::open(&written).unwrap();
    let indices = [
        0,
        1,
        2,
        3,
        4,
        5,
        6,
        1 << 61,
        usize::MAX / 8,
        usize::MAX - 1,
        usize::MAX,
    ];
    let bounds = || {
        indices
            .iter()
            .flat_map(|&i| [Included(i), Excluded(i), Unbounded])
    };
    let first = |bound: Bound<usize>| match bound {
        Included(i) => i as u128,
        Excluded(i) => i as u128 + 1,
        Unbounded => 0,
    };
    let last = |bound: Bound<usize>| match bound {
        Included(i) => i as u128 + 1,
        Excluded(i) => i as u128,
        Unbounded => 4,
    };
    let mut accepted = 0;
    for from in bounds() {
        for to in bounds() {
            let (start, end) = (first(from), last(to));
            let record = page.sum((from, to));
            if start <= end && end <= 4 {
                let span = &list[start as usize..end as usize];
                assert_eq!(record, fermuzhai::sum(span));
                assert!(page.values((from, to)).unwrap().eq(span.iter().copied()));
                accepted += 1;
            } else {
                assert_eq!(record, Err(Refusal::BadSpan), "{from:?}, {to:?}");
                let refused = page.values((from, to)).map(|values| values.len());
                assert_eq!(refused, Err(Refusal::BadSpan));
            }
        }
    }
    assert!(accepted > 50);
    for start in indices {
        for end in indices {
            let mut answer = [UNTOUCHED; 24];
            let code = raw::page_sum(&written, start, end, PLAIN, 0, &mut answer);
            let wanted = if start <= end && end <= 4 { 0 } else { 13 };
            assert_eq!(code, wanted, "{start}..{end}");
            assert_eq!(answer == [UNTOUCHED; 24], code != 0);
        }
    }
}

/// Every choice of conditions: the first in the order 2, 12, 13, 4 is told, and nothing is written.
#[test]
fn refusals_in_their_order() {
    let page = page_of(&[1f64.to_bits(), 2f64.to_bits()]);
    let mut settings = vec![(PLAIN, 3), (PLAIN, u64::MAX)];
    // above its range, each in turn
    for (at, number) in [9, 2, 4, 2, 2, 2, 2, 54].into_iter().enumerate() {
        let mut c = PLAIN;
        c[at] = number;
        settings.push((c, 0));
    }
    for holding in 0..16 {
        let holds = |condition: u32| holding >> condition & 1 == 1;
        let room = if holds(0) { 23 } else { 24 };
        let bytes = if holds(1) { &page[1..] } else { &page[..] };
        let (start, end) = if holds(2) { (0, 3) } else { (0, 2) };
        let wanted = [2, 12, 13, 4].into_iter().enumerate();
        let wanted = { wanted }.find(|&(condition, _)| holds(condition as u32));
        let code = wanted.map_or(0, |(_, code)| code);
        for &(c, u) in &settings {
            let (c, u) = if holds(3) { (c, u) } else { (PLAIN, 0) };
            let mut answer = vec![UNTOUCHED; room];
            assert_eq!(raw::page_sum(bytes, start, end, c, u, &mut answer), code);
            let untouched = answer.iter().all(|&byte| byte == UNTOUCHED);
            assert_eq!(untouched, code != 0);
        }
    }
    // the precision, through the types
    let opened = Page::open(&page).unwrap();
    let fine = Totals::<f64>::new().with_settings(Settings::new().with_precision(54));
    let precise = Refusal::PrecisionOutOfRange {
        precision: 54,
        digits: 53,
    };
    assert_eq!(fine.page_sum(Summand::Value, &opened, ..), Err(precise));
    assert_eq!(
        fine.page_sum(Summand::Value, &opened, ..3),
        Err(Refusal::BadSpan)
    );
}

/// What the examples print: the years of a career, and all of it.
#[test]
fn the_years_of_a_career() {
    let months = include_str!("data/career.txt").lines();
    let months = months.map(|line| f64::from_bits(u64::from_str_radix(line, 16).unwrap()));
    let written = Page::write(&months.collect::<Vec<f64>>()).unwrap();
    let page = Page::open(&written).unwrap();
    let line = |name: String, total: f64| format!("{name} {:016x} {total:.2}\n", total.to_bits());
    let mut printed = String::new();
    for year in 0..40 {
        let total = page.sum(12 * year..12 * year + 12).unwrap().result;
        printed += &line(format!("year {:02}", year + 1), total);
    }
    printed += &line("all".to_string(), page.sum(..).unwrap().result);
    assert_eq!(printed, include_str!("data/pages.expected"));
}
