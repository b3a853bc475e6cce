//! A year of which some months are stated, some estimated and some blank, with its lower and its
//! upper total. The lows, added one after the other, come to more than their exact sum, and the
//! highs to less: a total that the months allow can lie outside of those two.

use fermuzhai::Amount::{self, Between, Known, Missing};

const YEAR: [(&str, Amount); 12] = [
    ("Jan", Known(414.42)),
    ("Feb", Between(380.00, 430.00)),
    ("Mar", Missing),
    ("Apr", Known(414.42)),
    ("May", Between(408.20, 425.20)),
    ("Jun", Known(-51.17)),
    ("Jul", Missing),
    ("Aug", Between(-20.10, 150.10)),
    ("Sep", Known(437.31)),
    ("Oct", Known(437.31)),
    ("Nov", Between(420.20, 436.30)),
    ("Dec", Known(0.30)),
];

/// The most that a blank month can be.
const CEILING: f64 = 650.00;

fn show(what: &str, total: f64) {
    println!("{what:>4} {:016x} {total:.2}", total.to_bits());
}

fn main() -> Result<(), fermuzhai::Refusal> {
    let (mut lows, mut highs) = (0.0, 0.0);
    for (month, amount) in YEAR {
        let (low, high) = match amount {
            Known(paid) => (paid, paid),
            Between(low, high) => (low, high),
            Missing => (0.0, CEILING),
        };
        println!("{month:>4} {low:.2} to {high:.2}");
        lows += low;
        highs += high;
    }
    let (lower, upper) = fermuzhai::range(&YEAR.map(|(_, amount)| amount), CEILING)?;
    show("from", lower);
    show("to", upper);
    println!("added one after the other:");
    show("from", lows);
    show("to", highs);
    Ok(())
}
