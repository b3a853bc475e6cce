//! Twelve years of monthly amounts, read in two orders: a running total parts, the exact total does
//! not.

fn main() -> Result<(), fermuzhai::Refusal> {
    let months: Vec<f64> = (0..144)
        .map(|m| 412.37 * 1.0025f64.powi(m) - if m % 12 == 11 { 4947.11 } else { 0.0 })
        .collect();
    let mut backwards = months.clone();
    backwards.reverse();
    for (order, list) in [("forwards", &months), ("backwards", &backwards)] {
        let running: f64 = list.iter().sum();
        let exact = fermuzhai::sum(list)?;
        println!(
            "{order:>9}: running {:016x}  exact {:016x} = {exact}",
            running.to_bits(),
            exact.result.to_bits()
        );
    }
    Ok(())
}
