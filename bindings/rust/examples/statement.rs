//! The statement of a career, from standard input: its total in three formats, each rounded once
//! from the exact sum.
//!
//!     statement < examples/career.txt
//!
//! A line is the 16 hex digits of a month's amount in binary64.

use std::error::Error;
use std::io;

use fermuzhai::{sum_into, Format, Target};

/// An encoding of binary16 that is not a NaN.
fn half(encoding: u64) -> f64 {
    let (field, fraction) = (encoding as i32 >> 10 & 31, (encoding & 0x3ff) as f64);
    let magnitude = match field {
        31 => f64::INFINITY,
        0 => fraction * 2f64.powi(-24),
        _ => (1024.0 + fraction) * 2f64.powi(field - 25),
    };
    if encoding >> 15 == 1 {
        -magnitude
    } else {
        magnitude
    }
}

fn main() -> Result<(), Box<dyn Error>> {
    let mut months = Vec::new();
    for line in io::stdin().lines() {
        months.push(f64::from_bits(u64::from_str_radix(&line?, 16)?));
    }
    let formats = [Format::BINARY64, Format::BINARY32, Format::BINARY16];
    for (format, record) in formats
        .into_iter()
        .zip(sum_into(&months, &formats.map(Target::new)))
    {
        let record = record?;
        let pounds = match format.width {
            64 => f64::from_bits(record.result),
            32 => f32::from_bits(record.result as u32).into(),
            _ => half(record.result),
        };
        println!(
            "binary{} {:0digits$x} flags {:02x} side {} {pounds:.2}",
            format.width,
            record.result,
            record.flags.bits(),
            record.side as u8,
            digits = usize::from(format.width / 4),
        );
    }
    Ok(())
}
