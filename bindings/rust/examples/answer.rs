//! Answers cases, one a line, through the archive: the lines are those of the Rust oracle,
//!
//!     OP KIND E W ROUNDING TININESS NANPROP DEFNEG FTZ DAZ SAT PREC SUMMAND N v0 v1 ...
//!
//! and so are the answers, `RESULT FLAGS PASSES`. A refused case answers `refused CODE`, with the
//! number that the entry returns, and a line that is no case answers `error`.

use std::io::{self, BufRead, BufWriter, Write};

use fermuzhai::raw::{bytes, dot, sum};

fn answer(line: &str) -> Option<String> {
    let fields: Vec<&str> = line.split(' ').collect();
    let numbers: Vec<u64> = fields
        .get(1..14)?
        .iter()
        .map(|x| x.parse().ok())
        .collect::<Option<_>>()?;
    let values: Vec<u64> = fields[14..]
        .iter()
        .map(|x| u64::from_str_radix(x, 16).ok())
        .collect::<Option<_>>()?;
    let f = numbers[0..3].try_into().ok()?;
    let c = numbers[3..11].try_into().ok()?;
    let n = numbers[12] as usize;
    let mut buffer = [[0; 8]; 3];
    let room = buffer.as_flattened_mut();
    let code = match fields[0] {
        "sum" if values.len() == n => sum(f, c, numbers[11], &bytes(&values), room),
        "dot" if values.len() == 2 * n => {
            dot(f, c, &bytes(&values[..n]), &bytes(&values[n..]), room)
        }
        _ => return None,
    };
    if code != 0 {
        return Some(format!("refused {code}"));
    }
    let [result, [flags, ..], passes] = buffer;
    let [result, passes] = [result, passes].map(u64::from_le_bytes);
    Some(format!("{result:x} {flags} {passes}"))
}

fn main() -> io::Result<()> {
    let mut out = BufWriter::new(io::stdout().lock());
    for line in io::stdin().lock().lines() {
        let text = answer(&line?).unwrap_or_else(|| "error".to_string());
        writeln!(out, "{text}")?;
    }
    out.flush()
}
