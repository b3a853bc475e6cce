//! A career as a page, from standard input, asked for the total of each of its years and of all:
//!
//!     pages < examples/career.txt
//!
//! A line is the 16 hex digits of a month's amount in binary64; twelve are a year.

use std::error::Error;
use std::io;

use fermuzhai::Page;

fn show(what: &str, total: f64) {
    println!("{what} {:016x} {total:.2}", total.to_bits());
}

fn main() -> Result<(), Box<dyn Error>> {
    let mut months = Vec::new();
    for line in io::stdin().lines() {
        months.push(f64::from_bits(u64::from_str_radix(&line?, 16)?));
    }
    // what would be kept in a file
    let written = Page::write(&months)?;

    let page = Page::open(&written)?;
    for year in 0..page.len() / 12 {
        let total = page.sum(12 * year..12 * year + 12)?;
        show(&format!("year {:02}", year + 1), total.result);
    }
    show("all", page.sum(..)?.result);
    Ok(())
}
