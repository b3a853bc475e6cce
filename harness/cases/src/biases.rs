//! Cases in formats that name a bias.

use crate::case::{Case, Format};
use crate::draw::is_wide;
use crate::lists;
use crate::refusals::LARGEST_BIAS;
use crate::refused::refused;
use crate::rng::Rng;

/// One of the lists of the other groups.
pub fn drawn(rng: &mut Rng, format: Format) -> Case {
    match rng.below(16) {
        0..=3 => lists::random(rng, format),
        4..=6 => lists::ties(rng, format),
        7..=11 => lists::ties_at_the_ends(rng, format),
        12 => lists::cancellations(rng, format),
        13 => lists::specials(rng, format),
        14 if is_wide(format) && rng.once_in(64) => lists::wide(rng, format),
        _ => lists::chains(rng, format),
    }
}

/// Where values or magnitudes are added, the bias changes nothing but what the record's numbers are worth: most cases are of products.
pub fn named(rng: &mut Rng, format: Format) -> Case {
    loop {
        let case = drawn(rng, format);
        if case.is_product() || rng.once_in(3) {
            return case;
        }
    }
}

/// The bias that the kind has anyway is named.
pub fn own(rng: &mut Rng, format: Format) -> Case {
    drawn(rng, Format { bias: Some(format.own_bias()), ..format })
}

/// Calls with up to four faults, in half of them a bias outside its range: by one, by far, or one that is right in its low bits alone.
pub fn out_of_range(rng: &mut Rng, format: Format) -> Case {
    let mut case = refused(rng, format);
    if let (Some(bias), true) = (format.bias, rng.bit()) {
        case.format.bias = Some(out_of_its_range(rng, bias));
    }
    case
}

pub fn out_of_its_range(rng: &mut Rng, bias: i64) -> i64 {
    let far = rng.pick(&[LARGEST_BIAS + 1, LARGEST_BIAS + 1, LARGEST_BIAS + 2, 1 << 29, i64::MAX]);
    let high = 1 << rng.pick(&[32, 40, 62]);
    rng.pick(&[far, -far, bias + high, bias - high, i64::MIN])
}
