//! The tables, and the files that hold them.

use std::fmt::Write as _;
use std::path::Path;
use std::{fs, io};

use crate::lists::KINDS;
use crate::measure::Who;
use crate::plot;

/// The nanoseconds of each who took part.
pub struct Row {
    pub what: String,
    pub cells: Vec<(Who, f64)>,
}

/// The nanoseconds per element of a sum.
pub struct Growth {
    pub kind: char,
    pub who: Who,
    pub count: usize,
    /// On the average of the lists.
    pub passes: f64,
    pub time: f64,
}

pub struct Report {
    /// One list of 480 elements again and again, nanoseconds per element.
    pub months: Vec<Row>,
    /// Many such lists in turn.
    pub many: Vec<Row>,
    /// Nanoseconds per call.
    pub calls: Vec<Row>,
    pub growth: Vec<Growth>,
}

const START: &str = "<!-- table -->";
const END: &str = "<!-- end -->";

/// Commas from a thousand on.
fn grouped(digits: &str) -> String {
    let mut text = String::new();
    for (place, digit) in digits.chars().enumerate() {
        if place > 0 && (digits.len() - place) % 3 == 0 {
            text.push(',');
        }
        text.push(digit);
    }
    text
}

/// Three digits, or all before the point.
fn number(value: f64) -> String {
    match value {
        v if v < 9.995 => format!("{v:.2}"),
        v if v < 99.95 => format!("{v:.1}"),
        v => grouped(&format!("{v:.0}")),
    }
}

/// A whole number, or one digit after the point.
fn passes(mean: f64) -> String {
    if mean.fract() == 0.0 { format!("{mean}") } else { format!("{mean:.1}") }
}

/// Each row's nanoseconds, and in brackets how many times ours they are.
fn table(first: &str, rows: &[Row]) -> String {
    let present = |who: &Who| rows.iter().any(|row| row.cells.iter().any(|(other, _)| other == who));
    let columns: Vec<Who> = Who::ALL.into_iter().filter(present).collect();
    let mut text = format!("| {first} |");
    for who in &columns {
        let _ = write!(text, " {} |", who.name());
    }
    let _ = write!(text, "\n|---|{}\n", "---:|".repeat(columns.len()));
    for row in rows {
        let time = |who: Who| row.cells.iter().find(|cell| cell.0 == who).map(|cell| cell.1);
        let ours = time(Who::Ours).expect("ours takes part in each row");
        let _ = write!(text, "| {} |", row.what);
        for &who in &columns {
            let _ = match time(who) {
                None => write!(text, " – |"),
                Some(time) if who == Who::Ours => write!(text, " {} |", number(time)),
                Some(time) => write!(text, " {} ({}×) |", number(time), number(time / ours)),
            };
        }
        text.push('\n');
    }
    text
}

impl Report {
    fn times(&mut self) -> impl Iterator<Item = &mut f64> {
        let rows = self.months.iter_mut().chain(&mut self.many).chain(&mut self.calls);
        let cells = rows.flat_map(|row| row.cells.iter_mut().map(|cell| &mut cell.1));
        cells.chain(self.growth.iter_mut().map(|point| &mut point.time))
    }

    /// Takes over each time of another sweep that is less.
    pub fn lower(&mut self, mut other: Report) {
        for (time, again) in self.times().zip(other.times()) {
            *time = time.min(*again);
        }
    }

    fn point(&self, kind: char, who: Who, count: usize) -> Option<&Growth> {
        self.growth.iter().find(|point| point.kind == kind && point.who == who && point.count == count)
    }

    fn growth_table(&self) -> String {
        let present = |who: &Who| self.growth.iter().any(|point| point.who == *who);
        let columns: Vec<(Who, char)> = Who::ALL.into_iter().filter(present).flat_map(|who| KINDS.map(|(kind, _)| (who, kind))).collect();
        let mut text = "| elements | passes a, b, c |".to_string();
        for (who, kind) in &columns {
            let _ = write!(text, " {}, {kind} |", who.name());
        }
        let _ = write!(text, "\n|---:|---|{}\n", "---:|".repeat(columns.len()));
        let mut counts: Vec<usize> = self.growth.iter().map(|point| point.count).collect();
        counts.sort_unstable();
        counts.dedup();
        for count in counts {
            let means = KINDS.map(|(kind, _)| self.point(kind, Who::Ours, count).map_or(String::new(), |point| passes(point.passes)));
            let _ = write!(text, "| {} | {} |", grouped(&count.to_string()), means.join(", "));
            for &(who, kind) in &columns {
                let _ = match self.point(kind, who, count) {
                    Some(point) => write!(text, " {} |", number(point.time)),
                    None => write!(text, " – |"),
                };
            }
            text.push('\n');
        }
        text
    }

    pub fn tables(&self) -> String {
        format!(
            "One list of 480 elements again and again. Nanoseconds per element; in brackets, how many times\nFermuzhai's.\n\n{}\n\
             64 such lists in turn. Nanoseconds per element.\n\n{}\nNanoseconds per call.\n\n{}\n\
             Sums of 1 to 1,048,576 elements, many lists in turn up to 65,536. Nanoseconds per element; passes on\nthe average of the lists.\n\n{}",
            table("list, total", &self.months),
            table("lists, total", &self.many),
            table("call", &self.calls),
            self.growth_table()
        )
    }

    /// One line for each time: the table, the row, who, nanoseconds.
    fn lines(&self) -> String {
        let mut text = String::new();
        for (name, rows) in [("one-list-of-480", &self.months), ("64-lists-of-480", &self.many), ("per-call", &self.calls)] {
            for row in rows {
                for (who, time) in &row.cells {
                    let _ = writeln!(text, "{name}\t{}\t{}\t{time:.3}", row.what, who.name());
                }
            }
        }
        for Growth { kind, who, count, time, .. } in &self.growth {
            let _ = writeln!(text, "growth\tlist {kind} of {count}, sum\t{}\t{time:.3}", who.name());
        }
        text
    }

    pub fn write(&self, docs: &Path) -> io::Result<()> {
        fs::write(docs.join("performance.txt"), self.lines())?;
        fs::write(docs.join("performance.svg"), plot::svg(&self.growth))?;
        let page = docs.join("PERFORMANCE.md");
        let text = fs::read_to_string(&page)?;
        let missing = || io::Error::other(format!("PERFORMANCE.md has no {START} with an {END} after it"));
        let (before, rest) = text.split_once(START).ok_or_else(missing)?;
        let (_, after) = rest.split_once(END).ok_or_else(missing)?;
        fs::write(page, format!("{before}{START}\n{}\n{END}{after}", self.tables()))
    }
}
