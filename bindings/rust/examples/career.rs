//! The total of a career, from standard input, in one of two orders:
//!
//!     career forwards|backwards < examples/career.txt
//!
//! A line is the 16 hex digits of a month's amount in binary64. Result, flags, passes and the pence
//! of the sum go to standard output; what a running total comes to in that order goes to standard
//! error.

use std::error::Error;
use std::{env, io};

use fermuzhai::Refusal;

fn main() -> Result<(), Box<dyn Error>> {
    let mut months = Vec::new();
    for line in io::stdin().lines() {
        months.push(f64::from_bits(u64::from_str_radix(&line?, 16)?));
    }
    match env::args().nth(1).as_deref() {
        Some("forwards") => {}
        Some("backwards") => months.reverse(),
        _ => return Err("usage: career forwards|backwards < FILE".into()),
    }
    let total = fermuzhai::sum(&months)?;
    println!(
        "{:016x}\n{:02x}\n{}",
        total.result.to_bits(),
        total.flags.bits(),
        total.passes
    );
    match fermuzhai::pence(&months) {
        Ok(pence) => println!("{pence}"),
        Err(Refusal::NoPence) => println!("none"),
        Err(refusal) => return Err(refusal.into()),
    }
    eprintln!("{:016x}", months.iter().sum::<f64>().to_bits());
    Ok(())
}
