use alloc::vec::Vec;

use crate::{Record, Word};

/// The totals of an accepted table: of each row and of each column the result, of all cells the
/// record.
///
/// ```
/// let table = fermuzhai::table(&[0.5, 0.25, 1.0, 2.0], 2, 2)?;
/// assert_eq!(table.rows, [0.75, 3.0]);
/// assert_eq!(table.columns, [1.5, 2.25]);
/// assert_eq!(table.grand.to_string(), "3.75, flags NONE, passes 1");
/// # Ok::<(), fermuzhai::Refusal>(())
/// ```
///
/// Two are equal where every total is, by their encodings: so −0 is not +0, and a NaN equals
/// itself.
#[derive(Clone, Debug)]
#[non_exhaustive]
#[must_use = "the totals are in it"]
pub struct Table<T> {
    /// The sum of each row, from the first on: floats, or encodings where the cells are encodings.
    pub rows: Vec<T>,
    /// The sum of each column, from the first on.
    pub columns: Vec<T>,
    /// The sum of all cells.
    pub grand: Record<T>,
}

impl<T: Word> PartialEq for Table<T> {
    fn eq(&self, other: &Self) -> bool {
        T::encodings(&self.rows) == T::encodings(&other.rows)
            && T::encodings(&self.columns) == T::encodings(&other.columns)
            && self.grand == other.grand
    }
}

impl<T: Word> Eq for Table<T> {}

#[cfg(test)]
mod tests {
    use super::*;
    use crate::{Flags, Side};

    #[test]
    fn tables_are_compared_by_encoding() {
        let of = |rows: Vec<f64>, columns: Vec<f64>, result: f64| Table {
            rows,
            columns,
            grand: Record {
                result,
                flags: Flags::NONE,
                passes: 1,
                side: Side::Equal,
            },
        };
        let table = of(vec![f64::NAN], vec![0.0], 1.0);
        assert_eq!(table, table.clone());
        assert_ne!(table, of(vec![-f64::NAN], vec![0.0], 1.0));
        assert_ne!(table, of(vec![f64::NAN], vec![-0.0], 1.0));
        assert_ne!(table, of(vec![f64::NAN], vec![0.0, 0.0], 1.0));
        assert_ne!(table, of(vec![f64::NAN], vec![0.0], 2.0));
    }
}
