//! A career in many orders: every order has the same whole record.

mod common;
mod draw;

use common::ROUNDINGS;
use draw::Draw;
use fermuzhai::{Float, Format, Record, Refusal, Settings, Summand, Totals, Value};

const CAREER: &str = include_str!("data/career.txt");
const EXPECTED: &str = include_str!("data/career.expected");
const SHUFFLES: usize = 50;

fn career() -> Vec<f64> {
    CAREER
        .lines()
        .map(|line| f64::from_bits(u64::from_str_radix(line, 16).unwrap()))
        .collect()
}

impl Draw {
    fn shuffle<T>(&mut self, list: &mut [T]) {
        for i in (1..list.len()).rev() {
            list.swap(i, self.below(i as u64 + 1) as usize);
        }
    }

    /// A finite number of any exponent.
    fn finite(&mut self) -> f64 {
        loop {
            let x = f64::from_bits(self.next());
            if x.is_finite() {
                return x;
            }
        }
    }
}

/// Takes a total of the list, of the list backwards and of many shuffles: one record.
fn one_record<T: Copy, R: Value + std::fmt::Debug>(
    list: &[T],
    total: impl Fn(&[T]) -> Result<Record<R>, Refusal>,
) -> Record<R> {
    let record = total(list).unwrap();
    let mut other = list.to_vec();
    other.reverse();
    assert_eq!(total(&other), Ok(record), "backwards");
    let mut draw = Draw(list.len() as u64);
    for _ in 0..SHUFFLES {
        draw.shuffle(&mut other);
        assert_eq!(total(&other), Ok(record));
    }
    record
}

fn pairs<T: Copy>(left: &[T], right: &[T]) -> Vec<(T, T)> {
    left.iter().copied().zip(right.iter().copied()).collect()
}

/// All four totals under each rounding; in a dot the pairs move together.
fn four_totals_in_one_record<T: Value + std::fmt::Debug>(
    totals: Totals<T>,
    list: &[T],
    other: &[T],
) {
    for rounding in ROUNDINGS {
        let totals = totals.with_settings(Settings::new().with_rounding(rounding));
        let _ = one_record(list, |l| totals.sum(l));
        let _ = one_record(list, |l| totals.magnitude_sum(l));
        let _ = one_record(list, |l| totals.square_sum(l));
        let _ = one_record(&pairs(list, other), |l| {
            let (left, right): (Vec<T>, Vec<T>) = l.iter().copied().unzip();
            totals.dot(&left, &right)
        });
    }
}

fn four_float_totals<T: Float + std::fmt::Debug>(list: &[T], other: &[T]) {
    four_totals_in_one_record(Totals::new(), list, other);
}

#[test]
fn the_sum_is_the_expected_one_in_every_order() {
    let record = one_record(&career(), fermuzhai::sum::<f64>);
    let printed = format!(
        "{:016x}\n{:02x}\n{}\n",
        record.result.to_bits(),
        record.flags.bits(),
        record.passes
    );
    assert!(EXPECTED.starts_with(&printed), "{printed}");
}

#[test]
fn the_pence_are_the_expected_ones_in_every_order() {
    let expected = EXPECTED.lines().last().unwrap().parse().unwrap();
    let mut months = career();
    let mut draw = Draw(2);
    for _ in 0..SHUFFLES {
        assert_eq!(fermuzhai::pence(&months), Ok(expected));
        draw.shuffle(&mut months);
    }
}

#[test]
fn a_running_total_parts() {
    let months = career();
    let forwards: f64 = months.iter().sum();
    let backwards: f64 = months.iter().rev().sum();
    let exact = fermuzhai::sum(&months).unwrap().result;
    assert!(forwards != backwards && forwards != exact && backwards != exact);
}

#[test]
fn words_and_bytes_have_the_record_of_the_floats() {
    let months = career();
    let encodings: Vec<u64> = months.iter().map(|x| x.to_bits()).collect();
    let bytes: Vec<u8> = months.iter().flat_map(|x| x.to_le_bytes()).collect();
    let (floats, words) = (Totals::<f64>::new(), Totals::of(Format::BINARY64));
    for summand in [Summand::Value, Summand::Magnitude, Summand::Square] {
        let record = floats.sum_of(summand, &months).unwrap();
        assert_eq!(floats.sum_bytes(summand, &bytes), Ok(record));
        let of_words = words.sum_of(summand, &encodings).unwrap();
        assert_eq!(words.sum_bytes(summand, &bytes), Ok(of_words));
        assert_eq!(of_words.result, record.result.to_bits());
        assert_eq!(
            (of_words.flags, of_words.passes),
            (record.flags, record.passes)
        );
    }
    let record = floats.dot(&months, &months).unwrap();
    assert_eq!(floats.dot_bytes(&bytes, &bytes), Ok(record));
    assert_eq!(
        words.dot(&encodings, &encodings).unwrap().result,
        record.result.to_bits()
    );
}

#[test]
fn four_totals_of_doubles() {
    let months = career();
    let rates: Vec<f64> = (0..months.len()).map(|m| 1.0 + m as f64 / 4800.0).collect();
    four_float_totals(&months, &rates);
}

#[test]
fn four_totals_of_singles() {
    let months: Vec<f32> = career().iter().map(|&x| x as f32).collect();
    let rates: Vec<f32> = (0..months.len()).map(|m| 1.0 + m as f32 / 4800.0).collect();
    four_float_totals(&months, &rates);
}

/// Exponents far apart, and numbers beside their negatives: chains of several passes.
#[test]
fn four_totals_of_wide_lists() {
    let mut draw = Draw(7);
    let mut list: Vec<f64> = (0..40).map(|_| draw.finite()).collect();
    let cancelling: Vec<f64> = list.iter().map(|x| -x).chain([1.0, -0.0, 5e-324]).collect();
    let ends: Vec<f64> = (0..83).map(|_| draw.finite() / 2.0).collect();
    list.extend(cancelling);
    assert!(fermuzhai::sum(&list).unwrap().passes > 1);
    four_float_totals(&list, &ends);
}

#[test]
fn four_totals_of_every_known_format() {
    for format in [
        Format::BINARY32,
        Format::BINARY16,
        Format::BFLOAT16,
        Format::TF32,
        Format::E5M2,
        Format::E4M3,
        Format::E5M2_FNUZ,
        Format::E4M3_FNUZ,
        Format::E3M2,
        Format::E2M3,
        Format::E2M1,
    ] {
        let mut draw = Draw(u64::from(format.width));
        // below the greatest exponent, and no -0: none of these is a NaN, in any kind
        let mask = (1 << (format.width - 2)) - 1;
        let mut list = || -> Vec<u64> {
            let mut one = || (draw.next() & mask) | 1 | (draw.next() & 1) << (format.width - 1);
            (0..60).map(|_| one()).collect()
        };
        four_totals_in_one_record(Totals::of(format), &list(), &list());
    }
}
