//! The tables that are drawn.

use crate::biases::out_of_its_range;
use crate::case::{Case, Format, Operation};
use crate::draw::{Near, empty_case, is_wide};
use crate::lists::{lengthen, negative, special};
use crate::refused::{break_format, break_setting, put_stray_bit};
use crate::rng::Rng;
use crate::shape::Shape;
use crate::table::Table;
use crate::terms::Builder;

/// Few rows and columns in most tables, one of either or none in some.
fn sides(rng: &mut Rng) -> [usize; 2] {
    let mut up_to = |most: u64| 1 + rng.below(most) as usize;
    let (short, other, long) = (up_to(6), up_to(6), up_to(30));
    match rng.below(16) {
        0 => [0, long],
        1 => [long, 0],
        2 => [0, 0],
        3 => [1, long],
        4 => [long, 1],
        5 => [long, short],
        6 => [short, long],
        _ => [short, other],
    }
}

/// An accepted table: cells near each other, or a tie or a chain of passes in each row or in each column; with negatives of others among them.
pub fn any(rng: &mut Rng, format: Format) -> Table {
    let sides = sides(rng);
    let mut sum = empty_case(rng, format, Operation::Sum(0));
    let shape = Shape::of(format);
    let near = Near::new(rng, shape);
    for _ in 0..sides[0] * sides[1] {
        let cell = near.value(rng, &sum.left);
        sum.left.push(cell);
    }
    // the lists of a wide format lie too far apart for one table
    if !is_wide(format) && rng.bit() {
        put_lines(rng, &mut sum, sides);
    }
    if !sum.left.is_empty() {
        let place = |rng: &mut Rng, sum: &Case| rng.below(sum.left.len() as u64) as usize;
        for _ in 0..rng.below(4) {
            let (from, to) = (place(rng, &sum), place(rng, &sum));
            sum.left[to] = negative(&shape, sum.left[from]);
        }
        if rng.once_in(4) {
            for _ in 0..1 + rng.below(4) {
                let at = place(rng, &sum);
                sum.left[at] = special(rng, &shape, !is_wide(format));
            }
        }
    }
    let lent = sides.map(|side| side + rng.pick(&[0, 0, 1, 2, 7]));
    Table { sum, shape: sides.map(|side| side as u64), lent }
}

/// Puts what is a list of its own into each row, or into each column, as far as it fits there.
fn put_lines(rng: &mut Rng, sum: &mut Case, [rows, columns]: [usize; 2]) {
    let by_row = rng.bit();
    for line in 0..if by_row { rows } else { columns } {
        let mut list = Case::new(sum.format, sum.settings, Operation::Sum(0));
        let mut builder = Builder::new(rng, &mut list);
        match line % 3 {
            0 => builder.tie(false),
            1 => builder.chain(),
            _ => builder.tie(true),
        }
        for (at, cell) in list.left.into_iter().take(if by_row { columns } else { rows }).enumerate() {
            sum.left[if by_row { line * columns + at } else { at * columns + line }] = cell;
        }
    }
}

/// A table with up to three faults. Without one it is accepted, and compared as any other.
pub fn refused(rng: &mut Rng, format: Format) -> Table {
    let mut table = any(rng, format);
    for _ in 0..rng.below(4) {
        match rng.below(8) {
            0 => table.sum.room = if rng.bit() { 23 } else { rng.below(25) as usize },
            1 => break_format(rng, &mut table.sum, format.numbers),
            2 => {
                break_setting(rng, &mut table.sum, format.numbers);
                table.sum.operation = Operation::Sum(0);
            }
            3 | 4 => break_shape(rng, &mut table),
            5 | 6 => {
                let side = rng.below(2) as usize;
                let lent = table.lent[side];
                table.lent[side] = rng.pick(&[0, lent / 2, lent.min(table.shape[side] as usize).saturating_sub(1)]);
            }
            _ => put_stray_bit(rng, &mut table.sum, format.width()),
        }
    }
    table
}

/// A cell more or fewer, a row or a column more or fewer, sizes that are right in their low bits alone, and such whose product is.
fn break_shape(rng: &mut Rng, table: &mut Table) {
    let side = rng.below(2) as usize;
    let size = &mut table.shape[side];
    match rng.below(6) {
        0 => table.sum.left.push(0),
        1 => drop(table.sum.left.pop()),
        2 => *size = size.wrapping_add(rng.pick(&[1, 2, u64::MAX])),
        3 => *size = size.wrapping_add(1 << rng.pick(&[8, 32, 63])),
        4 => *size = rng.pick(&[0, 1 << 63, u64::MAX]),
        // 2^64 cells, or one more than a multiple of it
        _ => {
            let power = rng.below(65) as u32;
            table.shape = if rng.bit() { [1u64.checked_shl(power).unwrap_or(0), 1u64.checked_shl(64 - power).unwrap_or(0)] } else { [u64::MAX; 2] };
            table.sum.left.truncate(rng.below(2) as usize);
        }
    }
}

/// Tables of formats with a bias, which in some of them is out of its range.
pub fn biased(rng: &mut Rng, format: Format) -> Table {
    if !rng.once_in(4) {
        return any(rng, format);
    }
    let mut table = refused(rng, format);
    if rng.bit() {
        table.sum.format.bias = format.bias.map(|bias| out_of_its_range(rng, bias));
    }
    table
}

/// Tables of few different values, of about 1,048,576 cells or twice as many.
pub fn million(rng: &mut Rng, format: Format) -> Table {
    let most = 1 << 20;
    let shape = rng.pick(&[[1024, 1024], [most / 3, 3], [4, most / 4], [1024, 1025], [1, most + 1], [most + 1, 1], [2, most]]);
    let mut sum = empty_case(rng, format, Operation::Sum(0));
    let near = Near::new(rng, Shape::of(format));
    for _ in 0..3 {
        let cell = near.value(rng, &sum.left);
        sum.left.push(cell);
    }
    lengthen(rng, &mut sum, 3, (shape[0] * shape[1]) as usize);
    Table { sum, shape, lent: shape.map(|side| side as usize + rng.below(2) as usize) }
}
