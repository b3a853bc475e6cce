//! One table, looked at from every side: the refusal, each total, the record of all cells, each word and byte of the buffers, and the table transposed.

use std::panic::{AssertUnwindSafe, catch_unwind};

use crate::case::{Case, Format, Operation};
use crate::check::{Answer, Oracle, Seen, check_place, fill, has_nan, read_answer, skew};
use crate::entries;
use crate::refusals::Expected;
use crate::table::Table;

/// The entry to compare. Tests put another in its place.
pub type Entry = fn(Format, [u64; 8], [u64; 2], &[u64], [&mut [u64]; 2], &mut [u8]) -> u64;

/// Words before each list of totals and behind it, and bytes behind the answer buffer, that nobody is to touch.
const BEFORE: usize = 1;
const BEHIND: usize = 3;
const GUARD: usize = 32;

/// Buffers that serve one table after another.
pub struct TableBench {
    entry: Entry,
    cells: Vec<u64>,
    totals: [Vec<u64>; 2],
    answer: Vec<u8>,
}

impl Default for TableBench {
    fn default() -> Self {
        Self::with(entries::table)
    }
}

/// What word `i` of a list holds before the call: no two are the same.
fn fill_word(table: &Table, side: usize, i: usize) -> u64 {
    u64::from_le_bytes([table.sum.fill; 8]) ^ (2 * i + side) as u64
}

/// What a call wrote: the totals of the rows and of the columns, and the 24 bytes.
#[derive(Clone, PartialEq, Eq)]
struct Written {
    totals: [Vec<u64>; 2],
    answer: Vec<u8>,
}

impl TableBench {
    pub fn with(entry: Entry) -> Self {
        Self { entry, cells: vec![], totals: [vec![], vec![]], answer: vec![] }
    }

    fn call(&mut self, table: &Table) -> u64 {
        let Table { sum, shape, lent } = table;
        self.cells.clone_from(&sum.left);
        for (side, list) in self.totals.iter_mut().enumerate() {
            list.clear();
            list.extend((0..BEFORE + lent[side] + BEHIND).map(|i| fill_word(table, side, i)));
        }
        let skew = skew(sum);
        self.answer.clear();
        self.answer.extend((0..skew + sum.room + GUARD).map(|i| fill(sum, i)));
        let [rows, columns] = &mut self.totals;
        let totals = [&mut rows[BEFORE..BEFORE + lent[0]], &mut columns[BEFORE..BEFORE + lent[1]]];
        (self.entry)(sum.format, sum.settings, *shape, &self.cells, totals, &mut self.answer[skew..skew + sum.room])
    }

    fn written(&self, table: &Table) -> Written {
        let side = |side: usize| self.totals[side][BEFORE..BEFORE + table.shape[side] as usize].to_vec();
        let skew = skew(&table.sum);
        Written { totals: [side(0), side(1)], answer: self.answer[skew..skew + 24].to_vec() }
    }

    /// Nothing was written but the totals and the answer of an accepted call.
    fn check_untouched(&self, table: &Table, accepted: bool) -> Result<(), String> {
        if self.cells != table.sum.left {
            return Err("the cells were changed".to_string());
        }
        for (side, list) in self.totals.iter().enumerate() {
            let totals = if accepted { BEFORE..BEFORE + table.shape[side] as usize } else { 0..0 };
            if let Some(i) = (0..list.len()).find(|i| !totals.contains(i) && list[*i] != fill_word(table, side, *i)) {
                return Err(format!("word {} of list {side} was written", i as i64 - BEFORE as i64));
            }
        }
        let skew = skew(&table.sum);
        let bytes = if accepted { skew..skew + 24 } else { 0..0 };
        match (0..self.answer.len()).find(|i| !bytes.contains(i) && self.answer[*i] != fill(&table.sum, *i)) {
            Some(i) => Err(format!("byte {} of the answer buffer was written", i as i64 - skew as i64)),
            None => Ok(()),
        }
    }

    /// Checks one table. An error says what differs.
    pub fn check(&mut self, table: &Table, oracle: &Oracle) -> Result<Seen, String> {
        let code = self.call(table);
        let wanted = table.expected();
        self.check_untouched(table, wanted == Expected::Accepted)?;
        match wanted {
            Expected::Accepted if code == 0 => self.check_accepted(table, oracle),
            Expected::Refused(number) if code == number => Ok(Seen::Refused(number)),
            Expected::Stray(side) if code % 256 == 7 => check_place(&table.sum, side, code / 256),
            _ => Err(format!("expected {wanted:?}, but {code} was returned")),
        }
    }

    fn check_accepted(&mut self, table: &Table, oracle: &Oracle) -> Result<Seen, String> {
        let written = self.written(table);
        let (answer, side) = read_answer(&table.sum, &written.answer)?;
        let all = original(oracle, &table.sum)?;
        if all != answer {
            return Err(format!("of all cells the original answers {all:x?}, the archive {answer:x?}"));
        }
        for ((lines, totals), name) in table.lines().into_iter().zip(&written.totals).zip(["row", "column"]) {
            for (i, (line, &total)) in lines.into_iter().zip(totals).enumerate() {
                let mut case = Case::new(table.sum.format, table.sum.settings, Operation::Sum(0));
                case.left = line;
                let result = original(oracle, &case)?.result;
                if result != total {
                    return Err(format!("of {name} {i} the original's total is {result:x}, the archive's {total:x}"));
                }
            }
        }
        let rearranged = table.sum.left.len() > 1 && !has_nan(&table.sum);
        self.check_transposed(table, written.clone(), !has_nan(&table.sum))?;
        if table.sum.format.names_its_own() {
            let sum = Case { format: Format::plain(table.sum.format.numbers), ..table.sum.clone() };
            self.check_same("without the bias", &Table { sum, ..*table }, &written)?;
        }
        Ok(Seen::Accepted { result: answer.result.into(), flags: answer.flags, passes: answer.passes, side, rearranged })
    }

    /// The transposed table has the same totals in the other list, NaNs too: a row's cells keep their order in the column. The order of all cells
    /// changes.
    fn check_transposed(&mut self, table: &Table, written: Written, all: bool) -> Result<(), String> {
        let other = table.transposed();
        let [rows, columns] = written.totals;
        let code = self.call(&other);
        let now = self.written(&other);
        let answer = if all { written.answer } else { now.answer.clone() };
        let wanted = Written { totals: [columns, rows], answer };
        if code == 0 && now == wanted { Ok(()) } else { Err(format!("transposed to {other}: returned {code}, and not the same totals")) }
    }

    fn check_same(&mut self, how: &str, other: &Table, wanted: &Written) -> Result<(), String> {
        let code = self.call(other);
        if code == 0 && self.written(other) == *wanted { Ok(()) } else { Err(format!("{how}: returned {code}, and not the same totals")) }
    }
}

fn original(oracle: &Oracle, case: &Case) -> Result<Answer, String> {
    catch_unwind(AssertUnwindSafe(|| (oracle.total)(case))).map_err(|_| format!("the original panics in {case}"))
}

#[cfg(test)]
mod tests {
    use fermuzhai::raw;

    use super::{Entry, TableBench};
    use crate::case::{Case, Format};
    use crate::check::tests::archive_extended;
    use crate::check::{Answer, Oracle};
    use crate::entries;
    use crate::rng::Rng;
    use crate::table::{Table, shrink};
    use crate::tables;

    /// The archive's sums in the place of the original.
    fn sums(case: &Case) -> Answer {
        let mut answer = [0; 24];
        assert_eq!(entries::sum(case.format, case.settings, 0, &raw::bytes(&case.left), &mut answer), 0, "{case}");
        let word = |at: usize| u64::from_le_bytes(answer[at..at + 8].try_into().unwrap());
        Answer { result: word(0), flags: answer[8], passes: word(16) }
    }

    const FORMATS: [[u64; 3]; 8] = [[0, 2, 4], [0, 5, 16], [0, 11, 64], [0, 28, 64], [1, 4, 8], [2, 8, 32], [3, 2, 64], [3, 15, 17]];
    const BIASES: [i64; 7] = [0, -1, 11, 40, -2000, 1 << 28, -(1 << 28)];

    fn drawn(number: u64) -> Table {
        let (place, rng) = (number as usize / 4, &mut Rng::new(7, 9, number));
        let numbers = FORMATS[place % FORMATS.len()];
        let format = Format::plain(numbers);
        match number % 4 {
            0 => tables::refused(rng, format),
            1 => tables::biased(rng, Format::biased(numbers, BIASES[place % BIASES.len()])),
            2 if place % 8 == 0 => tables::any(rng, Format { bias: Some(format.own_bias()), ..format }),
            _ => tables::any(rng, format),
        }
    }

    /// The first table that shows that this is not the archive's entry.
    fn caught(entry: Entry) -> Option<(Table, String)> {
        let oracle = Oracle { formats: vec![], total: &sums, extended: &archive_extended };
        let mut bench = TableBench::with(entry);
        (0..8_000).map(drawn).find_map(|table| bench.check(&table, &oracle).err().map(|what| (table, what)))
    }

    #[test]
    fn the_archive_has_the_totals_of_rows_and_columns() {
        if let Some((table, what)) = caught(entries::table) {
            panic!("{table}: {what}");
        }
    }

    #[test]
    fn tables_of_a_million_cells() {
        let oracle = Oracle { formats: vec![], total: &sums, extended: &archive_extended };
        for number in 0..3 {
            let table = tables::million(&mut Rng::new(7, 10, number), Format::plain(FORMATS[number as usize % 3]));
            TableBench::default().check(&table, &oracle).unwrap_or_else(|what| panic!("{what}"));
        }
    }

    /// Entries to put in the archive's place, each with what is wrong with it.
    const WRONG: [(&str, Entry); 12] = [
        ("the sides exchanged", |f, c, [n, m], cells, totals, answer| entries::table(f, c, [m, n], cells, totals, answer)),
        ("the lists exchanged", |f, c, shape, cells, [a, b], answer| {
            let code = entries::table(f, c, shape, cells, [&mut *a, &mut *b], answer);
            if code == 0 && shape[0] > 1 && shape[0] == shape[1] {
                a[..shape[0] as usize].swap_with_slice(&mut b[..shape[0] as usize]);
            }
            code
        }),
        ("the first column repeated", |f, c, shape, cells, [a, b], answer| {
            let code = entries::table(f, c, shape, cells, [a, &mut *b], answer);
            if code == 0 && shape[1] > 0 {
                let first = b[0];
                b[..shape[1] as usize].fill(first);
            }
            code
        }),
        ("a total one place on", |f, c, shape, cells, [a, b], answer| {
            let code = entries::table(f, c, shape, cells, [&mut *a, b], answer);
            if code == 0 && a.len() as u64 > shape[0] {
                a[..=shape[0] as usize].rotate_right(1);
            }
            code
        }),
        ("a word behind the columns cleared", |f, c, shape, cells, [a, b], answer| {
            let code = entries::table(f, c, shape, cells, [a, &mut *b], answer);
            if code == 0 && b.len() as u64 > shape[1] {
                b[shape[1] as usize] = 0;
            }
            code
        }),
        ("a list written on refusal", |f, c, shape, cells, [a, b], answer| {
            let code = entries::table(f, c, shape, cells, [&mut *a, b], answer);
            if code % 256 == 7 && !a.is_empty() {
                a[0] = 0;
            }
            code
        }),
        ("7 before 9", |f, c, shape, cells, totals, answer| match entries::table(f, c, shape, cells, totals, answer) {
            9 if f.width() < 64 && cells.iter().any(|cell| cell >> f.width() != 0) => 7,
            code => code,
        }),
        ("10 before 9", |f, c, shape, cells, totals, answer| {
            let short = (0..2).any(|side| (totals[side].len() as u64) < shape[side]);
            match entries::table(f, c, shape, cells, totals, answer) {
                9 if short => 10,
                code => code,
            }
        }),
        ("the product modulo 2^64", |f, c, [n, m], cells, totals, answer| match entries::table(f, c, [n, m], cells, totals, answer) {
            9 if n.wrapping_mul(m) == cells.len() as u64 => 10,
            code => code,
        }),
        ("the rows' list tested for both", |f, c, shape, cells, [a, b], answer| match entries::table(f, c, shape, cells, [&mut *a, b], answer) {
            10 if a.len() as u64 >= shape[0] && a.len() as u64 >= shape[1] => 0,
            code => code,
        }),
        ("the record of the first row", |f, c, shape, cells, totals, answer| {
            let code = entries::table(f, c, shape, cells, totals, answer);
            if code == 0 && shape[0] > 1 {
                return entries::sum(f, c, 0, &raw::bytes(&cells[..shape[1] as usize]), answer);
            }
            code
        }),
        ("no bias", |f, c, shape, cells, totals, answer| entries::table(Format::plain(f.numbers), c, shape, cells, totals, answer)),
    ];

    #[test]
    fn wrong_entries_are_caught() {
        for (name, entry) in WRONG {
            assert!(caught(entry).is_some(), "{name}");
        }
    }

    #[test]
    fn a_difference_is_shrunk() {
        let oracle = Oracle { formats: vec![], total: &sums, extended: &archive_extended };
        // wrong where a total is 1 and the rounding toward zero
        let entry: Entry = |f, c, shape, cells, [a, b], answer| {
            let code = entries::table(f, c, shape, cells, [a, &mut *b], answer);
            for total in b.iter_mut().take(shape[1] as usize).filter(|total| code == 0 && **total == 0x3c00 && c[0] == 5) {
                *total += 1;
            }
            code
        };
        let mut sum = Case::new(Format::plain([0, 5, 16]), [5, 1, 2, 1, 0, 0, 1, 3], crate::case::Operation::Sum(0));
        sum.left = vec![1, 0x3c00, 0x7bff, 0, 0, 0, 0x4000, 0, 0x8001];
        let mut bench = TableBench::with(entry);
        let table = Table { sum, shape: [3, 3], lent: [4, 4] };
        assert!(bench.check(&table, &oracle).is_err());
        let smallest = shrink(table, &mut |table| bench.check(table, &oracle).is_err());
        assert_eq!((smallest.sum.left.as_slice(), smallest.shape), (&[0x3c00][..], [1, 1]));
        assert_eq!(smallest.sum.settings, [5, 0, 0, 0, 0, 0, 0, 0]);
    }
}
