//! Answers totals by the original: a case on each line of standard input, a line for each on standard output. crates/replay/README.md says how both
//! look.
//!
//!     answer --passes < cases
//!     answer formats

use std::io::{self, BufRead, BufWriter, Write};
use std::panic::{AssertUnwindSafe, catch_unwind};
use std::process::ExitCode;
use std::str::FromStr;

use floaty::oracle::{Answer, Operation, Table, WideAnswer, extended};

/// The next field of a line, read as a number.
fn next<T: FromStr>(fields: &mut dyn Iterator<Item = &str>) -> Option<T> {
    fields.next()?.parse().ok()
}

fn values(fields: &mut dyn Iterator<Item = &str>, count: u64, width: u64) -> Option<Vec<u128>> {
    let value = |text: &str| u128::from_str_radix(text, 16).ok().filter(|value| width < 128 && value >> width == 0);
    (0..count).map(|_| value(fields.next()?)).collect()
}

/// The words of values that have one each.
fn words(values: &[u128]) -> Vec<u64> {
    values.iter().map(|&value| value as u64).collect()
}

/// Kind 4 with its one E and W.
const EXTENDED: [u64; 3] = [4, 15, 80];

/// The numbers of the specification's settings and summand are in their ranges, and so is the format.
fn in_range(format: [u64; 3], settings: &[u64; 8], operation: Operation) -> bool {
    let [kind, e, w] = format;
    let digits = if format == EXTENDED { 64 } else { w.saturating_sub(e) };
    let most = [7, 1, 3, 1, 1, 1, 1, digits];
    let summand = if let Operation::Sum(summand) = operation { summand } else { 0 };
    let one_word = kind <= 3 && (2..=28).contains(&e) && e + 2 <= w && w <= 64;
    (one_word || format == EXTENDED) && settings.iter().zip(most).all(|(value, most)| *value <= most) && summand <= 2
}

/// The answer of a line, or what stands in its place.
fn answer(table: &Table, line: &str) -> Result<WideAnswer, &'static str> {
    let fields = &mut line.split(' ');
    let case = || -> Option<_> {
        let (dot, biased) = match fields.next()? {
            "sum" => (false, false),
            "dot" => (true, false),
            "sum_biased" => (false, true),
            "dot_biased" => (true, true),
            _ => return None,
        };
        let format = [next(fields)?, next(fields)?, next(fields)?];
        let bias = if biased { Some(next::<i64>(fields)?) } else { None };
        let mut settings = [0; 8];
        for setting in &mut settings {
            *setting = next(fields)?;
        }
        let summand = next(fields)?;
        let operation = if dot { Operation::Dot } else { Operation::Sum(summand) };
        let count = next(fields)?;
        let left = values(fields, count, format[2])?;
        let right = values(fields, if dot { count } else { 0 }, format[2])?;
        let named = format == EXTENDED && bias.is_some();
        let whole = fields.next().is_none() && in_range(format, &settings, operation) && !named;
        whole.then_some((format, bias, settings, operation, left, right))
    };
    let (format, bias, settings, operation, left, right) = { case }().ok_or("error")?;
    if format == EXTENDED {
        return catch_unwind(AssertUnwindSafe(|| extended(operation, &left, &right, &settings))).map_err(|_| "panic");
    }
    let total = table.get(format, bias).ok_or("unsupported")?;
    let (left, right) = (words(&left), words(&right));
    let given = catch_unwind(AssertUnwindSafe(|| total(operation, &left, &right, &settings))).map_err(|_| "panic");
    given.map(|Answer { result, flags, passes }| WideAnswer { result: result.into(), flags, passes })
}

fn answers(table: &Table) -> io::Result<()> {
    let mut out = BufWriter::new(io::stdout().lock());
    for line in io::stdin().lock().lines() {
        match answer(table, &line?) {
            Ok(WideAnswer { result, flags, passes }) => writeln!(out, "{result:x} {flags} {passes}")?,
            Err(what) => writeln!(out, "{what}")?,
        }
    }
    out.flush()
}

fn formats(table: &Table) -> io::Result<()> {
    let mut out = BufWriter::new(io::stdout().lock());
    let [kind, e, w] = EXTENDED;
    writeln!(out, "{kind} {e} {w}")?;
    for ([kind, e, w], bias) in table.formats() {
        let bias = bias.map(|bias| format!(" {bias}")).unwrap_or_default();
        writeln!(out, "{kind} {e} {w}{bias}")?;
    }
    out.flush()
}

fn main() -> ExitCode {
    let mut table = Table::new();
    formats_ieee::fill(&mut table);
    formats_noinf::fill(&mut table);
    formats_fnuz::fill(&mut table);
    formats_finite::fill(&mut table);
    std::panic::set_hook(Box::new(|_| {}));
    let arguments: Vec<String> = std::env::args().skip(1).collect();
    let done = match arguments.iter().map(String::as_str).collect::<Vec<_>>()[..] {
        ["--passes"] => answers(&table),
        ["formats"] => formats(&table),
        _ => Err(io::Error::other("answer --passes < cases, or answer formats")),
    };
    match done {
        Ok(()) => ExitCode::SUCCESS,
        Err(error) => {
            eprintln!("answer: {error}");
            ExitCode::FAILURE
        }
    }
}
