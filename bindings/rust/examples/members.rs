//! What four members paid in six months, with the exact total of each member, of each month and of
//! all. The totals of the members, rounded as they are and then added, come to less, and those of
//! the months to more.

const MEMBERS: [&str; 4] = ["Ada", "Ben", "Cleo", "Dov"];
const MONTHS: [&str; 6] = ["Jan", "Feb", "Mar", "Apr", "May", "Jun"];

/// Row after row: a member's months stand side by side.
#[rustfmt::skip]
const PAID: [f64; 24] = [
    439.16,   439.16,  439.16, 411.86, 411.86, 411.86,
    0.10,     0.20,    0.30,   0.10,   0.20,   0.30,
    1200.00, -1200.00, 104.73, 104.73, 104.73, 104.73,
    44.92,    44.92,   44.92,  44.92,  0.00,  -44.92,
];

fn show(what: &str, total: f64) {
    println!("{what:>4} {:016x} {total:.2}", total.to_bits());
}

fn main() -> Result<(), fermuzhai::Refusal> {
    let totals = fermuzhai::table(&PAID, MEMBERS.len(), MONTHS.len())?;
    for (member, &total) in MEMBERS.iter().zip(&totals.rows) {
        show(member, total);
    }
    for (month, &total) in MONTHS.iter().zip(&totals.columns) {
        show(month, total);
    }
    show("all", totals.grand.result);
    println!("added one after the other:");
    show("rows", totals.rows.iter().sum());
    show("cols", totals.columns.iter().sum());
    Ok(())
}
