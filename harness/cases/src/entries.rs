//! The entries of libtotals.a, by the format: of the byte entries the ones that take a bias where it names one, else the plain ones.

use fermuzhai::raw;

use crate::case::Format;

pub fn sum(f: Format, c: [u64; 8], summand: u64, values: &[u8], answer: &mut [u8]) -> u64 {
    match f.bias {
        Some(bias) => raw::sum_biased(f.numbers, bias, c, summand, values, answer),
        None => raw::sum(f.numbers, c, summand, values, answer),
    }
}

pub fn dot(f: Format, c: [u64; 8], left: &[u8], right: &[u8], answer: &mut [u8]) -> u64 {
    match f.bias {
        Some(bias) => raw::dot_biased(f.numbers, bias, c, left, right, answer),
        None => raw::dot(f.numbers, c, left, right, answer),
    }
}

pub fn table(f: Format, c: [u64; 8], shape: [u64; 2], cells: &[u64], totals: [&mut [u64]; 2], answer: &mut [u8]) -> u64 {
    raw::table(f.numbers, f.bias, c, shape, cells, totals, answer)
}
