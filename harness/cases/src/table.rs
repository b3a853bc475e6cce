//! One call of the entry of tables, what it is to return, and the smallest one that still differs.

use std::fmt;

use crate::case::Case;
use crate::refusals::{self, Expected};
use crate::shrink::{clear_settings, drop_elements};

#[derive(Clone, Debug)]
pub struct Table {
    /// The sum of all cells: the format, the settings, the cells row after row, and the answer buffer.
    pub sum: Case,
    /// Rows, columns.
    pub shape: [u64; 2],
    /// The lengths of the lists that are lent for the totals of the rows and of the columns.
    pub lent: [usize; 2],
}

/// The cells of each row, from left to right.
fn rows(cells: &[u64], [rows, columns]: [usize; 2]) -> Vec<Vec<u64>> {
    (0..rows).map(|i| cells[i * columns..(i + 1) * columns].to_vec()).collect()
}

/// The cells of each column, from top to bottom.
fn columns(cells: &[u64], [_, columns]: [usize; 2]) -> Vec<Vec<u64>> {
    (0..columns).map(|j| cells.iter().copied().skip(j).step_by(columns).collect()).collect()
}

impl Table {
    /// Whether rows times columns is the number of cells.
    fn is_filled(&self) -> bool {
        let [rows, columns] = self.shape.map(u128::from);
        rows * columns == self.sum.left.len() as u128
    }

    /// The first condition of the specification's order that holds: of the sum of the cells all but the stray bits come before the table's own.
    pub fn expected(&self) -> Expected {
        let short = self.shape.iter().zip(self.lent).any(|(&side, lent)| (lent as u64) < side);
        match refusals::expected_of_values(&self.sum) {
            _ if self.sum.room < 24 => Expected::Refused(2),
            Expected::Refused(number) => Expected::Refused(number),
            _ if !self.is_filled() => Expected::Refused(9),
            _ if short => Expected::Refused(10),
            of_cells => of_cells,
        }
    }

    /// The cells of the rows, and those of the columns, of an accepted table.
    pub fn lines(&self) -> [Vec<Vec<u64>>; 2] {
        let shape = self.shape.map(|side| side as usize);
        [rows(&self.sum.left, shape), columns(&self.sum.left, shape)]
    }

    /// Rows as columns, of an accepted table.
    pub fn transposed(&self) -> Self {
        let [rows, columns] = self.shape;
        let [a, b] = self.lent;
        let left = self.lines()[1].concat();
        Self { sum: Case { left, ..self.sum.clone() }, shape: [columns, rows], lent: [b, a] }
    }

    /// Without a row (side 0) or a column (side 1), and with a list that is one word shorter.
    fn without(&self, side: usize, line: usize) -> Self {
        let columns = self.shape[1] as usize;
        let place = |at: usize| if side == 0 { at / columns } else { at % columns };
        let mut other = self.clone();
        other.sum.left = self.sum.left.iter().enumerate().filter(|(at, _)| place(*at) != line).map(|(_, &cell)| cell).collect();
        other.shape[side] -= 1;
        other.lent[side] = other.lent[side].saturating_sub(1);
        other
    }

    fn with_sum(&self, sum: &Case) -> Self {
        Self { sum: sum.clone(), ..*self }
    }
}

impl fmt::Display for Table {
    fn fmt(&self, out: &mut fmt::Formatter) -> fmt::Result {
        let ([rows, columns], [a, b]) = (self.shape, self.lent);
        write!(out, "{rows} rows, {columns} columns, lists of {a} and {b} for their totals, {}", self.sum)
    }
}

/// Shrinks a table: rows and columns are dropped, settings cleared, cells made zeros, for as long as a difference stays.
pub fn shrink(table: Table, differs: &mut dyn FnMut(&Table) -> bool) -> Table {
    let mut smallest = table;
    loop {
        let lines = drop_lines(&mut smallest, differs);
        let mut sum = smallest.sum.clone();
        let mut sum_differs = |sum: &Case| differs(&smallest.with_sum(sum));
        // cells that fill no table may go one by one
        let cells = !smallest.is_filled() && drop_elements(&mut sum, &mut sum_differs);
        let cleared = clear_settings(&mut sum, &mut sum_differs) | clear_cells(&mut sum, &mut sum_differs);
        smallest.sum = sum;
        if !lines && !cells && !cleared {
            return smallest;
        }
    }
}

fn drop_lines(smallest: &mut Table, differs: &mut dyn FnMut(&Table) -> bool) -> bool {
    let mut dropped = false;
    for side in 0..2 {
        let mut line = 0;
        while smallest.is_filled() && !smallest.sum.left.is_empty() && (line as u64) < smallest.shape[side] {
            let smaller = smallest.without(side, line);
            if differs(&smaller) {
                *smallest = smaller;
                dropped = true;
            } else {
                line += 1;
            }
        }
    }
    dropped
}

fn clear_cells(sum: &mut Case, differs: &mut dyn FnMut(&Case) -> bool) -> bool {
    let mut cleared = false;
    for at in 0..sum.left.len() {
        let cell = std::mem::take(&mut sum.left[at]);
        if cell != 0 && differs(sum) {
            cleared = true;
        } else {
            sum.left[at] = cell;
        }
    }
    cleared
}

#[cfg(test)]
mod tests {
    use super::Table;
    use crate::case::{Case, Format, Operation};
    use crate::refusals::{Expected, Side};

    fn table(shape: [u64; 2], cells: &[u64], lent: [usize; 2]) -> Table {
        let mut sum = Case::new(Format::plain([0, 5, 16]), [0; 8], Operation::Sum(0));
        sum.left = cells.to_vec();
        Table { sum, shape, lent }
    }

    #[test]
    fn rows_and_columns() {
        let t = table([2, 3], &[1, 2, 3, 4, 5, 6], [2, 3]);
        assert_eq!(t.lines(), [vec![vec![1, 2, 3], vec![4, 5, 6]], vec![vec![1, 4], vec![2, 5], vec![3, 6]]]);
        assert_eq!((t.transposed().sum.left, t.transposed().shape), (vec![1, 4, 2, 5, 3, 6], [3, 2]));
        assert_eq!(t.without(0, 0).sum.left, [4, 5, 6]);
        assert_eq!(t.without(1, 1).sum.left, [1, 3, 4, 6]);
        assert_eq!(table([2, 0], &[], [2, 0]).lines(), [vec![vec![], vec![]], vec![]]);
        assert_eq!(table([0, 2], &[], [0, 2]).lines(), [vec![], vec![vec![], vec![]]]);
    }

    #[test]
    fn refusals_in_their_order() {
        let stray = 1 << 16;
        for (shape, cells, lent, wanted) in [
            ([1 << 32, 1 << 32], vec![], [9, 9], Expected::Refused(9)),
            ([u64::MAX, u64::MAX], vec![1], [9, 9], Expected::Refused(9)),
            ([u64::MAX, 0], vec![], [9, 9], Expected::Refused(10)),
            ([0, 1 << 63], vec![], [9, 9], Expected::Refused(10)),
            ([2, 2], vec![1, stray, 1, 1], [1, 2], Expected::Refused(10)),
            ([2, 2], vec![1, stray, 1], [1, 2], Expected::Refused(9)),
            ([2, 2], vec![1, stray, 1, 1], [2, 2], Expected::Stray(Side::Left)),
            ([3, 0], vec![], [3, 0], Expected::Accepted),
        ] {
            assert_eq!(table(shape, &cells, lent).expected(), wanted);
        }
        let mut t = table([2, 2], &[stray], [0, 0]);
        t.sum.settings[0] = 8;
        assert_eq!(t.expected(), Expected::Refused(4));
        t.sum.format.bias = Some(1 << 29);
        assert_eq!(t.expected(), Expected::Refused(3));
        t.sum.room = 23;
        assert_eq!(t.expected(), Expected::Refused(2));
    }
}
