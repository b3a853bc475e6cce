//! Times libtotals.a beside the original, GNU MPFR, CPython and a plain loop, all called by this one program.
//!
//!     bench [quick | write DOCS]
//!
//! quick takes some seconds and one sweep; write also writes performance.txt, performance.svg and the tables of PERFORMANCE.md to the folder DOCS.
//! The original takes part with the feature `original`, MPFR with the feature `mpfr`.

mod fsum;
mod lists;
mod measure;
#[cfg(feature = "mpfr")]
mod mpfr;
mod plot;
mod report;
mod rivals;

use std::process::ExitCode;
use std::time::Duration;

use fsum::Python;
use lists::{KINDS, Lists};
use measure::{Rival, Who, measure};
use report::{Growth, Report, Row};
use rivals::Operation;

const MONTHS: usize = 480;
const SEED: u64 = 1;

/// So many lists of 480 elements are more than a processor learns the branches of.
const MANY: u64 = 64;

/// And so many elements, in lists of any length.
const FRESH: usize = 1 << 17;

/// Everything is timed so often, and the least time counts.
struct Effort {
    sweeps: u32,
    row: Duration,
    point: Duration,
    longest: usize,
}

const FULL: Effort = Effort { sweeps: 4, row: Duration::from_millis(300), point: Duration::from_millis(60), longest: LONGEST };
const QUICK: Effort = Effort { sweeps: 1, row: Duration::from_millis(1), point: Duration::from_millis(1), longest: 4096 };

/// Up to here the original and MPFR are timed too.
const SHORT: usize = 10_000;
const LONGEST: usize = 1 << 20;

const OPERATIONS: [(&str, Operation); 3] = [("sum", Operation::Sum(0)), ("square sum", Operation::Sum(2)), ("dot", Operation::Dot)];

/// Whether every exact sum is the same; says so where not.
fn agree(what: &str, rivals: &[Rival]) -> bool {
    let exact: Vec<(Who, u64)> = rivals.iter().filter_map(|rival| Some((rival.who, rival.exact?))).collect();
    let same = exact.iter().all(|&(_, result)| result == exact[0].1);
    if !same {
        let results: Vec<String> = exact.iter().map(|(who, result)| format!("{} {result:016x}", who.name())).collect();
        println!("bench: the results of {what} differ: {}", results.join(", "));
    }
    same
}

/// The row of a total, its times divided by `per`.
fn row(what: String, rivals: &mut [Rival], lists: usize, per: usize, at_most: Duration, same: &mut bool) -> Row {
    *same &= agree(&what, rivals);
    let cells = measure(rivals, lists, at_most).into_iter().map(|(who, time)| (who, time / per as f64)).collect();
    Row { what, cells }
}

fn months(effort: &Effort, python: &mut Option<Python>, same: &mut bool) -> Vec<Row> {
    let mut rows = Vec::new();
    for (kind, holds) in KINDS {
        let lists = [Lists::of(kind, MONTHS, SEED)];
        for (name, operation) in OPERATIONS {
            let passes = rivals::passes(operation, &lists[0]);
            let mut rivals = rivals::binary64(operation, &lists, python.as_mut());
            rows.push(row(format!("{kind} ({holds}), {name}; passes: {passes}"), &mut rivals, 1, MONTHS, effort.row, same));
        }
    }
    rows
}

fn many(effort: &Effort, same: &mut bool) -> Vec<Row> {
    let of_kind = |(kind, holds)| {
        let lists: Vec<Lists> = (0..MANY).map(|more| Lists::of(kind, MONTHS, SEED + more)).collect();
        let mut rivals = rivals::binary64(Operation::Sum(0), &lists, None);
        row(format!("{kind} ({holds}), sum"), &mut rivals, lists.len(), MONTHS, effort.row, same)
    };
    KINDS.into_iter().map(of_kind).collect()
}

fn calls(effort: &Effort, python: &mut Option<Python>, same: &mut bool) -> Vec<Row> {
    let mut rows = Vec::new();
    let one = [Lists::of('a', 1, SEED)];
    for (name, operation) in OPERATIONS {
        let mut rivals = rivals::binary64(operation, &one, python.as_mut());
        rows.push(row(format!("one amount, {name}"), &mut rivals, 1, 1, effort.row, same));
    }
    let gap = [Lists::gap()];
    rows.push(row("the two-element gap, sum".to_string(), &mut rivals::gap(&gap), 1, 1, effort.row, same));
    rows
}

fn growth(effort: &Effort, same: &mut bool) -> Vec<Growth> {
    let mut points = Vec::new();
    for (kind, _) in KINDS {
        let mut count = 1;
        while count <= effort.longest {
            let lists: Vec<Lists> = (0..(FRESH / count).max(1)).map(|more| Lists::of(kind, count, SEED + more as u64)).collect();
            let passes = lists.iter().map(|lists| rivals::passes(Operation::Sum(0), lists) as f64).sum::<f64>() / lists.len() as f64;
            let mut rivals = rivals::sums(&lists, count <= SHORT);
            *same &= agree(&format!("the lists {kind} of {count}"), &rivals);
            for (who, time) in measure(&mut rivals, lists.len(), effort.point) {
                points.push(Growth { kind, who, count, passes, time: time / count as f64 });
            }
            count *= 2;
        }
    }
    points
}

fn main() -> ExitCode {
    let words: Vec<String> = std::env::args().skip(1).collect();
    let words: Vec<&str> = words.iter().map(String::as_str).collect();
    let (effort, docs) = match words[..] {
        [] => (FULL, None),
        ["quick"] => (QUICK, None),
        ["write", docs] => (FULL, Some(docs)),
        _ => {
            eprintln!("bench [quick | write DOCS]");
            return ExitCode::from(2);
        }
    };
    let mut python = Python::start();
    if python.is_none() {
        println!("bench: python3 does not start; the column of math.fsum is left out");
    }
    let mut same = true;
    let mut sweep = || Report {
        months: months(&effort, &mut python, &mut same),
        many: many(&effort, &mut same),
        calls: calls(&effort, &mut python, &mut same),
        growth: growth(&effort, &mut same),
    };
    let mut report = sweep();
    for _ in 1..effort.sweeps {
        report.lower(sweep());
    }
    println!("{}", report.tables());
    if let Some(docs) = docs {
        if let Err(error) = report.write(docs.as_ref()) {
            println!("bench: {error}");
            return ExitCode::FAILURE;
        }
    }
    if same { ExitCode::SUCCESS } else { ExitCode::FAILURE }
}
