//! Compares libtotals.a with the original source, both in this one program.
//!
//!     compare quick|long CASES SEED THREADS

use std::process::ExitCode;

use cases::{Answer, Case, Format, Operation, Options, Oracle};
use floaty::oracle::{self, Table};

fn operation(asked: Operation) -> oracle::Operation {
    match asked {
        Operation::Sum(summand) => oracle::Operation::Sum(summand),
        Operation::Dot => oracle::Operation::Dot,
    }
}

/// The original's total of an accepted case.
fn total(table: &Table, case: &Case) -> Answer {
    let total = table.get(case.format.numbers, case.format.bias).expect("cases are drawn from the compiled formats");
    let oracle::Answer { result, flags, passes } = total(operation(case.operation), &case.left, &case.right, &case.settings);
    Answer { result, flags, passes }
}

/// The same of values of ten bytes.
fn extended(case: &Case<u128>) -> Answer<u128> {
    let oracle::WideAnswer { result, flags, passes } = oracle::extended(operation(case.operation), &case.left, &case.right, &case.settings);
    Answer { result, flags, passes }
}

fn options(arguments: &[String]) -> Option<Options> {
    let [mode, cases, seed, threads] = arguments else { return None };
    // a quick run takes one of so many of the exhaustive cases
    let stride = match mode.as_str() {
        "quick" => 13,
        "long" => 1,
        _ => return None,
    };
    Some(Options { stride, cases: cases.parse().ok()?, seed: seed.parse().ok()?, threads: threads.parse().ok()? })
}

fn main() -> ExitCode {
    let arguments: Vec<String> = std::env::args().skip(1).collect();
    let Some(options) = options(&arguments) else {
        eprintln!("compare quick|long CASES SEED THREADS");
        return ExitCode::from(2);
    };
    let mut table = Table::new();
    formats_ieee::fill(&mut table);
    formats_noinf::fill(&mut table);
    formats_fnuz::fill(&mut table);
    formats_finite::fill(&mut table);
    // a panic of the original is caught and reported as a difference
    std::panic::set_hook(Box::new(|_| {}));
    let formats = table.formats().into_iter().map(|(numbers, bias)| Format { numbers, bias }).collect();
    let oracle = Oracle { formats, total: &|case| total(&table, case), extended: &extended };
    if cases::run(&options, &oracle) { ExitCode::SUCCESS } else { ExitCode::FAILURE }
}
