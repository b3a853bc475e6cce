//! A list while scrolling: its first figures within one pass and within two, each between two
//! doubles, and its total once there are passes enough.

use fermuzhai::{sum_within, Estimate, Refusal};

/// One amount is a slip that is taken back, and one a speck.
const AMOUNTS: [f64; 6] = [412.25, 1e300, 398.10, -1e300, 1e-300, 405.50];

fn main() -> Result<(), Refusal> {
    for allowance in 1..=4 {
        print!("allowed {allowance}: ");
        match sum_within(&AMOUNTS, allowance)? {
            Estimate::Full(record) => println!(
                "{:016x} flags {:02x} passes {}: {:.2}",
                record.result.to_bits(),
                record.flags.bits(),
                record.passes,
                record.result,
            ),
            Estimate::Unfinished(seen) => {
                let (lower, upper) = seen.bounds();
                println!(
                    "{:016x} to {:016x}: {:.2}",
                    lower.to_bits(),
                    upper.to_bits(),
                    seen.figure(),
                );
            }
        }
    }
    Ok(())
}
