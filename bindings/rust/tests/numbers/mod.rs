//! What an encoding stands for, by docs/SPECIFICATION.md.

use fermuzhai::{Format, Kind};

/// The exponent of the least normal number.
pub fn least(f: Format) -> i64 {
    1 - f.bias()
}

/// A number of a format: its significand times a power of two.
#[derive(Clone, Copy, Debug)]
pub struct Number {
    pub is_negative: bool,
    pub significand: u64,
    pub exponent: i64,
    pub is_subnormal: bool,
}

/// What an encoding stands for; `None` of a NaN or an infinity.
pub fn number(f: Format, encoding: u64) -> Option<Number> {
    let digits = u32::from(f.digits());
    let sign = 1 << (f.width - 1);
    let magnitude = encoding & (sign - 1);
    let (field, fraction) = (
        magnitude >> (digits - 1),
        magnitude & ((1 << (digits - 1)) - 1),
    );
    let is_special = match f.kind {
        Kind::Ieee => field == (1 << f.exponent_bits) - 1,
        Kind::NoInf => magnitude == sign - 1,
        Kind::Fnuz => encoding == sign,
        _ => false,
    };
    let leading = if field == 0 { 0 } else { 1 << (digits - 1) };
    (!is_special).then_some(Number {
        is_negative: encoding & sign != 0,
        significand: leading + fraction,
        exponent: least(f) + field.max(1) as i64 - i64::from(digits),
        is_subnormal: field == 0 && fraction != 0,
    })
}
