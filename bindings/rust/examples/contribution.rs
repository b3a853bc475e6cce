//! What must be paid in month 480? Of a career, from standard input, the first 479 months are paid,
//! and a total is wanted:
//!
//!     contribution < examples/career.txt
//!
//! A line is the 16 hex digits of a month's amount in binary64. The contribution is the least
//! double that brings the total there; the one before it and a penny less do not.

use std::error::Error;
use std::io;

use fermuzhai::{contribution, sum, Refusal};

const PAID: usize = 479;
const WANTED: f64 = 60_000.0;
const PENNY: f64 = 0.01;

/// The next double toward negative infinity, of a finite one.
fn before(x: f64) -> f64 {
    let bits = x.to_bits();
    f64::from_bits(if x == 0.0 {
        1 << 63 | 1
    } else if x > 0.0 {
        bits - 1
    } else {
        bits + 1
    })
}

/// An amount, or a total and what is said of it.
fn show(what: &str, amount: f64, said: &str) {
    println!("{what} {:016x} {amount:.2}{said}", amount.to_bits());
}

fn main() -> Result<(), Box<dyn Error>> {
    let mut months = Vec::new();
    for line in io::stdin().lines().take(PAID) {
        months.push(f64::from_bits(u64::from_str_radix(&line?, 16)?));
    }
    let due = contribution(&months, WANTED)?;
    show("paid", sum(&months)?.result, "");
    show("wanted", WANTED, "");
    show("contribution", due, "");

    let show_with = |what: &str, last: f64| -> Result<(), Refusal> {
        let total = sum(&[months.as_slice(), &[last]].concat())?.result;
        let said = if total == WANTED {
            " reached"
        } else {
            " missed"
        };
        show(what, total, said);
        Ok(())
    };
    show_with("with it", due)?;
    show_with("with the number before", before(due))?;
    show_with("with a penny less", due - PENNY)?;
    Ok(())
}
