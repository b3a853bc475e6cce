//! The totals of the rows and columns of a table, through `raw`, through `Totals` and through the
//! free function. The expectations are exact sums in whole numbers, those of docs/SPECIFICATION.md
//! worked out by hand, and what the plain sum gives for the cells of each row and column.

mod common;
mod draw;

use common::ROUNDINGS;
use draw::Draw;
use fermuzhai::{
    raw, sum, table, Float, Format, Kind, NanPropagation, Refusal, Rounding, Settings, Side,
    Tininess, Totals, Word,
};

const LIMIT: usize = 1 << 28;
const MILLION: usize = 1 << 20;
const GUARD: u64 = 0xa5a5_a5a5_a5a5_a5a5;
const UNTOUCHED: u8 = 0xa5;
/// How many words stand behind the totals, and bytes behind the answer.
const BEYOND: usize = 3;

impl Draw {
    fn flag(&mut self) -> bool {
        self.below(2) == 1
    }
}

/// The cells of column j, from top to bottom.
fn column<T: Copy>(cells: &[T], rows: usize, columns: usize, j: usize) -> Vec<T> {
    (0..rows).map(|i| cells[i * columns + j]).collect()
}

/// What a call of the entry leaves: its code, the two lists with `BEYOND` more words than they
/// need, and the answer with as many bytes more.
#[derive(Debug, PartialEq)]
struct Left {
    code: u64,
    rows: Vec<u64>,
    columns: Vec<u64>,
    answer: Vec<u8>,
}

fn call(totals: Totals<u64>, cells: &[u64], rows: usize, columns: usize) -> Left {
    let mut left = Left {
        code: 0,
        rows: vec![GUARD; rows + BEYOND],
        columns: vec![GUARD; columns + BEYOND],
        answer: vec![UNTOUCHED; 24 + BEYOND],
    };
    left.code = raw::table(
        totals.format().into(),
        totals.format().named_bias,
        totals.settings().into(),
        [rows as u64, columns as u64],
        cells,
        [&mut left.rows, &mut left.columns],
        &mut left.answer,
    );
    left
}

/// Every way to the totals of encodings: they are these, and nothing is written beyond them.
fn check(totals: Totals<u64>, cells: &[u64], rows: &[u64], columns: &[u64], grand: u64) {
    let (m, n) = (rows.len(), columns.len());
    let what = || format!("{totals:?}, {m} × {n}: {cells:x?}");
    let left = call(totals, cells, m, n);
    assert_eq!(left.code, 0, "{}", what());
    assert_eq!(left.rows[..m], *rows, "{}", what());
    assert_eq!(left.columns[..n], *columns, "{}", what());
    assert_eq!(left.answer[..8], grand.to_le_bytes(), "{}", what());
    assert_eq!(left.rows[m..], [GUARD; BEYOND], "{}", what());
    assert_eq!(left.columns[n..], [GUARD; BEYOND], "{}", what());
    assert_eq!(left.answer[24..], [UNTOUCHED; BEYOND], "{}", what());

    let given = totals.table(cells, m, n).unwrap();
    assert_eq!(given.rows, rows, "{}", what());
    assert_eq!(given.columns, columns, "{}", what());
    assert_eq!(given.grand, totals.sum(cells).unwrap(), "{}", what());
    assert_eq!(given.grand.result, grand, "{}", what());

    // a list that is just long enough, and one that is longer
    let (mut short, mut long) = (vec![GUARD; m], vec![GUARD; n + 1]);
    let into = totals.table_into(cells, m, n, &mut short, &mut long);
    assert_eq!(into, Ok(given.grand), "{}", what());
    assert_eq!(short, rows, "{}", what());
    assert_eq!(long, [columns, &[GUARD]].concat(), "{}", what());
}

/// Each total is what the plain sum gives for its cells, in their order.
fn check_sums(totals: Totals<u64>, cells: &[u64], rows: usize, columns: usize) {
    let result = |list: &[u64]| totals.sum(list).unwrap().result;
    let of_rows: Vec<u64> = (0..rows)
        .map(|i| result(&cells[i * columns..][..columns]))
        .collect();
    let of_columns: Vec<u64> = (0..columns)
        .map(|j| result(&column(cells, rows, columns, j)))
        .collect();
    check(totals, cells, &of_rows, &of_columns, result(cells));

    // the answer is byte for byte that of the entry for sums
    let mut answer = vec![UNTOUCHED; 24 + BEYOND];
    let (f, c) = (totals.format().into(), totals.settings().into());
    let bytes = raw::bytes(cells);
    let code = match totals.format().named_bias {
        None => raw::sum(f, c, 0, &bytes, &mut answer),
        Some(bias) => raw::sum_biased(f, bias, c, 0, &bytes, &mut answer),
    };
    assert_eq!(code, 0);
    assert_eq!(call(totals, cells, rows, columns).answer, answer);
}

const HALVES: Totals<u64> = Totals::of(Format::BINARY16);

fn halves(rounding: Rounding) -> Totals<u64> {
    HALVES.with_settings(Settings::new().with_rounding(rounding))
}

/// 1 2 3 and 1 1 1.
const SIX: [u64; 6] = [0x3c00, 0x4000, 0x4200, 0x3c00, 0x3c00, 0x3c00];

#[test]
fn six_cells_in_every_shape() {
    let [one, two, three, four, six, nine] = [0x3c00, 0x4000, 0x4200, 0x4400, 0x4600, 0x4880];
    check(HALVES, &SIX, &[six, three], &[two, three, four], nine);
    check(HALVES, &SIX, &[three, four, two], &[0x4500, four], nine);
    check(HALVES, &SIX, &[nine], &SIX, nine);
    check(HALVES, &SIX, &SIX, &[nine], nine);
    check(HALVES, &[one], &[one], &[one], one);
}

/// An empty row or column is +0, toward negative too; so is an empty table.
#[test]
fn no_rows_or_no_columns() {
    for rounding in ROUNDINGS {
        let totals = halves(rounding);
        for n in [1, 3, 1000] {
            check(totals, &[], &vec![0; n], &[], 0);
            check(totals, &[], &[], &vec![0; n], 0);
        }
        check(totals, &[], &[], &[], 0);
        let record = totals.table(&[], 3, 0).unwrap().grand;
        assert_eq!(
            (record.flags.bits(), record.passes, record.side),
            (0, 0, Side::Equal)
        );
    }
    for (rows, columns) in [(0, 0), (0, 5), (5, 0)] {
        let doubles = table::<f64>(&[], rows, columns).unwrap();
        assert_eq!(doubles.rows, vec![0.0; rows]);
        assert_eq!(doubles.columns, vec![0.0; columns]);
        assert!({ doubles.rows.iter() }.all(|total| total.is_sign_positive()));
    }
}

/// Zeros and terms that cancel: −0 where all zeros are −0, and toward negative where there is a −0
/// or a term.
#[test]
fn zeros_of_either_sign() {
    const MINUS: u64 = 0x8000;
    // +0 −0 and −0 −0 in the first two columns; 1 and −1 cancel in the third
    let cells = [0, MINUS, 0x3c00, MINUS, MINUS, 0xbc00];
    let nearest = halves(Rounding::TiesToEven);
    check(nearest, &cells, &[0x3c00, 0xbc00], &[0, MINUS, 0], 0);
    let down = halves(Rounding::TowardNegative);
    check(down, &cells, &[0x3c00, 0xbc00], &[MINUS; 3], MINUS);
    check(nearest, &[0, MINUS], &[0], &[0, MINUS], 0);
    check(down, &[0, MINUS], &[MINUS], &[0, MINUS], MINUS);
}

/// One and a quarter of its last place, of either sign, beside 1 and −1.
#[test]
fn roundings() {
    let trace = 0x0c00; // 2^−12, a quarter of the last place of 1
    let cells = [0x3c00, trace, 0xbc00, trace | 0x8000];
    for (rounding, up, down) in [
        (Rounding::TiesToEven, 0x3c00, 0xbc00),
        (Rounding::TiesToAway, 0x3c00, 0xbc00),
        (Rounding::TiesTowardZero, 0x3c00, 0xbc00),
        (Rounding::TowardPositive, 0x3c01, 0xbc00),
        (Rounding::TowardNegative, 0x3c00, 0xbc01),
        (Rounding::TowardZero, 0x3c00, 0xbc00),
        (Rounding::AwayFromZero, 0x3c01, 0xbc01),
        (Rounding::ToOdd, 0x3c01, 0xbc01),
    ] {
        let is_down = rounding == Rounding::TowardNegative;
        let zero = if is_down { 0x8000 } else { 0 };
        check(halves(rounding), &cells, &[up, down], &[zero, zero], zero);
    }
    // in two digits, ties to even: 5 and 7 are 4 and 8, and 5 + 7 is 12
    let short = HALVES.with_settings(Settings::new().with_precision(2));
    let (five_seven, four_eight) = ([0x4500, 0x4700], [0x4400, 0x4800]);
    check(short, &five_seven, &four_eight, &[0x4a00], 0x4a00);
}

/// Eighths, whose exact sums a double has: in whole numbers they are known. In larger tables four
/// amounts cancel within two rows and within two columns.
#[test]
fn eighths() {
    let mut draw = Draw(3);
    for round in 0..300 {
        let (rows, columns) = (draw.below(9) as usize, draw.below(9) as usize);
        let mut eighths: Vec<i64> = (0..rows * columns)
            .map(|_| (draw.next() as i64) >> (16 + round % 40))
            .collect();
        let corner = [
            (0, 1e300),
            (1, -1e300),
            (columns, -1e300),
            (columns + 1, 1e300),
        ];
        let cancelling = &corner[..if rows > 1 && columns > 1 { 4 } else { 0 }];
        for &(place, _) in cancelling {
            eighths[place] = 0;
        }
        let of = |list: &[i64]| list.iter().sum::<i64>() as f64 / 8.0;
        let mut cells: Vec<f64> = eighths.iter().map(|&n| of(&[n])).collect();
        for &(place, amount) in cancelling {
            cells[place] = amount;
        }
        let of_rows: Vec<f64> = (0..rows)
            .map(|i| of(&eighths[i * columns..][..columns]))
            .collect();
        let of_columns: Vec<f64> = (0..columns)
            .map(|j| of(&column(&eighths, rows, columns, j)))
            .collect();
        let given = table(&cells, rows, columns).unwrap();
        assert_eq!(given.rows, of_rows);
        assert_eq!(given.columns, of_columns);
        assert_eq!(given.grand.result, of(&eighths));
    }
}

#[test]
fn singles() {
    let cells = [16_777_216f32, 1.0, -16_777_216.0, 0.5, 2.0, 4.0];
    let given = table(&cells, 2, 3).unwrap();
    assert_eq!(given.rows, [1.0, 6.5]);
    assert_eq!(given.columns, [16_777_216.0, 3.0, -16_777_212.0]);
    assert_eq!(given.grand, sum(&cells).unwrap());
    assert_eq!(given.grand.result, 7.5);

    // a signaling NaN beyond the totals keeps every bit, in a refused call too
    let guard = f32::from_bits(0x7f80_0001);
    let (mut rows, mut columns) = ([guard; 3], [guard; 4]);
    let bits = |list: &[f32]| -> Vec<u32> { list.iter().map(|x| x.to_bits()).collect() };
    let totals = Totals::<f32>::new();
    for (m, n, refusal) in [(3, 3, Refusal::BadShape), (6, 1, Refusal::NoRoom)] {
        let refused = totals.table_into(&cells, m, n, &mut rows, &mut columns);
        assert_eq!(refused, Err(refusal));
        assert_eq!(bits(&rows), [0x7f80_0001; 3]);
        assert_eq!(bits(&columns), [0x7f80_0001; 4]);
    }
    let into = totals.table_into(&cells, 2, 3, &mut rows, &mut columns);
    assert_eq!(into, Ok(given.grand));
    assert_eq!(bits(&rows[..2]), bits(&given.rows));
    assert_eq!(bits(&columns[..3]), bits(&given.columns));
    assert_eq!([rows[2], columns[3]].map(f32::to_bits), [0x7f80_0001; 2]);
}

/// The NaN of a row is selected from left to right, that of a column from top to bottom; infinities
/// meet within a row or column alone, and so does what is too large.
#[test]
fn nans_and_infinities() {
    let with = |rule| HALVES.with_settings(Settings::new().with_nan_propagation(rule));
    let signaling_first = with(NanPropagation::SignalingFirst);
    let first_operand = with(NanPropagation::FirstOperand);
    let larger = with(NanPropagation::LargerSignificand);
    let default = with(NanPropagation::DefaultNan);
    let saturated = HALVES.with_settings(Settings::new().with_saturate(true));
    // four quiet ones; two signaling ones in the middle, which become quiet
    let quiet = [0x7e01, 0x7e04, 0x7e03, 0x7e02];
    let signaling = [0x7e01, 0x7c05, 0xfc06, 0x3c00];
    // one column has both; 65504 twice
    let infinities = [0x7c00, 0x3c00, 0xfc00, 0x4000];
    let large = [0x7bff, 0x3c00, 0x7bff, 0xbc00];
    #[rustfmt::skip]
    let tables = [
        (signaling_first, quiet, [0x7e01, 0x7e03], [0x7e01, 0x7e04], 0x7e01),
        (first_operand, quiet, [0x7e01, 0x7e03], [0x7e01, 0x7e04], 0x7e01),
        (larger, quiet, [0x7e04, 0x7e03], [0x7e03, 0x7e04], 0x7e04),
        (default, quiet, [0x7e00, 0x7e00], [0x7e00, 0x7e00], 0x7e00),
        (signaling_first, signaling, [0x7e05, 0xfe06], [0xfe06, 0x7e05], 0x7e05),
        (first_operand, signaling, [0x7e01, 0xfe06], [0x7e01, 0x7e05], 0x7e01),
        (HALVES, infinities, [0x7c00, 0xfc00], [0x7e00, 0x4200], 0x7e00),
        (HALVES, large, [0x7bff, 0x7bff], [0x7c00, 0], 0x7c00),
        (saturated, large, [0x7bff, 0x7bff], [0x7bff, 0], 0x7bff),
    ];
    for (totals, cells, rows, columns, grand) in tables {
        check(totals, &cells, &rows, &columns, grand);
    }
    let record = HALVES.table(&infinities, 2, 2).unwrap().grand;
    assert_eq!((record.flags.bits(), record.side), (1, Side::NoComparison));
}

fn drawn_settings(draw: &mut Draw, digits: u8) -> Settings {
    let rules = [
        NanPropagation::SignalingFirst,
        NanPropagation::FirstOperand,
        NanPropagation::LargerSignificand,
        NanPropagation::DefaultNan,
    ];
    let tininess = [Tininess::BeforeRounding, Tininess::AfterRounding];
    Settings::new()
        .with_rounding(ROUNDINGS[draw.below(8) as usize])
        .with_tininess(tininess[draw.below(2) as usize])
        .with_nan_propagation(rules[draw.below(4) as usize])
        .with_default_nan_negative(draw.flag())
        .with_flush_to_zero(draw.flag())
        .with_denormals_are_zero(draw.flag())
        .with_saturate(draw.flag())
        .with_precision(draw.below(u64::from(digits) + 1) as u8)
}

/// Of each format, tables of encodings of every sort, under drawn settings: rows and columns have
/// what the plain sum gives.
#[test]
fn rows_and_columns_are_plain_sums() {
    let formats = [
        Format::BINARY64,
        Format::BINARY32,
        Format::BINARY16,
        Format::BFLOAT16,
        Format::TF32,
        Format::E5M2,
        Format::E4M3,
        Format::E5M2_FNUZ,
        Format::E4M3_FNUZ,
        Format::E3M2,
        Format::E2M3,
        Format::E2M1,
        Format::BINARY16.with_bias(-40),
        Format::BINARY16.with_bias(Format::FARTHEST_BIAS),
        Format::E4M3_FNUZ.with_bias(11),
        Format::new(Kind::Ieee, 28, 64),
    ];
    let (mut wide, mut special) = (0, 0);
    for (seed, format) in formats.into_iter().enumerate() {
        let mut draw = Draw(seed as u64);
        let all = u64::MAX >> (64 - format.width);
        let greatest = ((1u64 << format.exponent_bits) - 1) << (format.digits() - 1);
        for _ in 0..60 {
            let totals =
                Totals::of(format).with_settings(drawn_settings(&mut draw, format.digits()));
            let (rows, columns) = match draw.below(8) {
                0 => (1, draw.below(40) as usize),
                1 => (draw.below(40) as usize, 1),
                2 => (0, draw.below(5) as usize),
                3 => (draw.below(5) as usize, 0),
                _ => (draw.below(7) as usize, draw.below(7) as usize),
            };
            // numbers for the most part; in some tables infinities and NaNs among them
            let share = [0, 3, 20][draw.below(3) as usize];
            let mut cell = || {
                let sign = draw.next() & (1 << (format.width - 1));
                match draw.below(100) {
                    0..10 => sign,
                    at if at < 10 + share => (greatest | draw.below(4)) & all | sign,
                    _ => draw.next() & all & !(1 << (format.width - 2)),
                }
            };
            let cells: Vec<u64> = (0..rows * columns).map(|_| cell()).collect();
            check_sums(totals, &cells, rows, columns);
            wide += u32::from(rows > 1 && columns > 1);
            let side = totals.sum(&cells).unwrap().side;
            special += u32::from(side == Side::NoComparison);
        }
    }
    assert!(wide > 200 && special > 100, "{wide} {special}");
}

/// Floats have the totals of their encodings.
#[test]
fn floats_are_their_encodings() {
    fn same<T: Float + Word + std::fmt::Debug>(cells: &[T], encoding: impl Fn(T) -> u64) {
        let encodings: Vec<u64> = cells.iter().map(|&x| encoding(x)).collect();
        let totals = Totals::<T>::new();
        for (rows, columns) in [(4, 6), (1, 24), (24, 1), (8, 3)] {
            let given = totals.table(cells, rows, columns).unwrap();
            let words = Totals::of(T::FORMAT).table(&encodings, rows, columns);
            let words = words.unwrap();
            let of = |list: &[T]| -> Vec<u64> { list.iter().map(|&x| encoding(x)).collect() };
            assert_eq!(of(&given.rows), words.rows);
            assert_eq!(of(&given.columns), words.columns);
            assert_eq!(encoding(given.grand.result), words.grand.result);
            let (flags, passes, side) = (given.grand.flags, given.grand.passes, given.grand.side);
            assert_eq!(
                (flags, passes, side),
                (words.grand.flags, words.grand.passes, words.grand.side)
            );
            assert_eq!(table(cells, rows, columns), Ok(given));
        }
    }
    let mut draw = Draw(24);
    for _ in 0..50 {
        let doubles: Vec<f64> = (0..24).map(|_| f64::from_bits(draw.next())).collect();
        same(&doubles, f64::to_bits);
        let singles: Vec<f32> = (0..24)
            .map(|_| f32::from_bits(draw.next() as u32))
            .collect();
        same(&singles, |x| x.to_bits().into());
    }
}

/// A million cells and one more, each in three shapes: cell i is i mod 7, less 3. There are as many
/// rows or columns as cells.
#[test]
fn a_million_cells() {
    let all: Vec<f64> = (0..=MILLION).map(|i| (i % 7) as f64 - 3.0).collect();
    let of = |places: &mut dyn Iterator<Item = usize>| -> f64 {
        places.map(|i| (i % 7) as i64 - 3).sum::<i64>() as f64
    };
    for (rows, columns) in [
        (1024, 1024),
        (1, MILLION),
        (MILLION, 1),
        (17, 61_681),
        (1, MILLION + 1),
        (MILLION + 1, 1),
    ] {
        let count = rows * columns;
        let given = table(&all[..count], rows, columns).unwrap();
        assert_eq!((given.rows.len(), given.columns.len()), (rows, columns));
        for (i, &total) in given.rows.iter().enumerate() {
            assert_eq!(total, of(&mut (i * columns..(i + 1) * columns)));
        }
        for (j, &total) in given.columns.iter().enumerate() {
            assert_eq!(total, of(&mut (j..count).step_by(columns)));
        }
        assert_eq!(given.grand.result, of(&mut (0..count)));
    }
}

/// Refused by the typed calls, which leave the lists of the caller as they were.
fn check_refused(cells: &[u64], rows: usize, columns: usize, refusal: Refusal) {
    assert_eq!(HALVES.table(cells, rows, columns), Err(refusal));
    let (mut row_totals, mut column_totals) = ([GUARD; 3], [GUARD; 3]);
    let into = HALVES.table_into(cells, rows, columns, &mut row_totals, &mut column_totals);
    assert_eq!(into, Err(refusal));
    assert_eq!((row_totals, column_totals), ([GUARD; 3], [GUARD; 3]));
}

/// Rows times columns are whole numbers, not modulo 2^64.
#[test]
fn shapes() {
    let code = |rows: u64, columns: u64, cells: &[u64]| {
        let (mut of_rows, mut of_columns, mut answer) = ([GUARD; 6], [GUARD; 6], [UNTOUCHED; 24]);
        let lists: [&mut [u64]; 2] = [&mut of_rows, &mut of_columns];
        let shape = [rows, columns];
        let code = raw::table([0, 5, 16], None, [0; 8], shape, cells, lists, &mut answer);
        assert!(code == 0 || of_rows == [GUARD; 6] && of_columns == [GUARD; 6]);
        assert!(code == 0 || answer == [UNTOUCHED; 24]);
        code
    };
    let half = 1 << 63;
    for (rows, columns, count) in [
        (1 << 32, 1 << 32, 0),
        (half, 2, 0),
        (2, half, 0),
        (u64::MAX, u64::MAX, 1),
        (half + 3, 2, 6),
        (2, half + 3, 6),
        (half, half, 0),
        (0, 0, 1),
        (0, 6, 6),
        (6, 0, 6),
        (1, 1, 0),
        (2, 2, 6),
        (3, 3, 6),
        (7, 1, 6),
        (1, 5, 6),
        (u64::MAX, 1, 6),
        (1, u64::MAX, 6),
    ] {
        assert_eq!(code(rows, columns, &SIX[..count]), 9, "{rows} × {columns}");
        assert_eq!(code(columns, rows, &SIX[..count]), 9, "{columns} × {rows}");
        let (rows, columns) = (rows as usize, columns as usize);
        check_refused(&SIX[..count], rows, columns, Refusal::BadShape);
    }
    for n in [7, 1 << 32, half, half + 1, u64::MAX] {
        assert_eq!(code(n, 0, &[]), 10, "{n} × 0");
        assert_eq!(code(0, n, &[]), 10, "0 × {n}");
    }
    assert_eq!(code(6, 1, &SIX), 0);
    assert_eq!(code(1, 6, &SIX), 0);
    assert_eq!(code(6, 0, &[]), 0);
}

/// Where there are no cells the rows have no limit but the room: `table` makes it for a million,
/// and lists that are lent can be longer.
#[test]
fn more_rows_than_cells() {
    for n in [MILLION + 1, LIMIT, LIMIT + 1, 1 << 40, 1 << 62, usize::MAX] {
        check_refused(&[], n, 0, Refusal::NoRoom);
        check_refused(&[], 0, n, Refusal::NoRoom);
        assert_eq!(table::<f64>(&[], n, 0), Err(Refusal::NoRoom));
        assert_eq!(table::<f32>(&[], 0, n), Err(Refusal::NoRoom));
    }
    let given = table::<f64>(&[], MILLION, 0).unwrap();
    assert_eq!(given.rows, vec![0.0; MILLION]);
    let mut rows = vec![7.0; MILLION + 3];
    let record = Totals::<f64>::new().table_into(&[], MILLION + 2, 0, &mut rows, &mut []);
    assert_eq!(record.unwrap().result, 0.0);
    assert!(rows[..MILLION + 2].iter().all(|total| total.to_bits() == 0));
    assert_eq!(rows[MILLION + 2], 7.0);
}

/// Each refusal, and all that several conditions together can be: the first in the order 2, 3, 4,
/// 6, 9, 10, 7 is returned, and nothing is written.
#[test]
fn refusals_in_their_order() {
    const ORDER: [u64; 7] = [2, 3, 4, 6, 9, 10, 7];
    // zeros that nobody wrote take no memory
    let many = vec![0; LIMIT + (1 << 14)];
    let mut stray_many = vec![0; LIMIT + (1 << 14)];
    let mut stray = SIX.to_vec();
    for list in [&mut stray, &mut stray_many] {
        list[4] = 0x1_0000;
        list[5] = 1 << 63;
    }
    for holding in 0..1 << ORDER.len() {
        let holds = |number: u64| -> bool {
            { ORDER.iter().enumerate() }.any(|(i, &n)| n == number && holding >> i & 1 == 1)
        };
        let cells: &[u64] = match (holds(6), holds(7)) {
            (false, false) => &SIX,
            (false, true) => &stray,
            (true, false) => &many,
            (true, true) => &stray_many,
        };
        let shape = match (holds(6), holds(9)) {
            (_, true) => [2, 2],
            (false, false) => [2, 3],
            (true, false) => [1 << 14, (1 << 14) + 1],
        };
        assert_eq!(shape[0] * shape[1] == cells.len() as u64, !holds(9));
        let format = if holds(3) { [4, 5, 16] } else { [0, 5, 16] };
        let settings = if holds(4) { [8; 8] } else { [0; 8] };
        // too short by one: the rows', the columns', both
        for lacking in if holds(10) { 1..4 } else { 0..1 } {
            let [mut rows, mut columns] = [0, 1].map(|i| {
                let lacks = lacking >> i & 1;
                let room = if lacks == 1 {
                    shape[i] - 1
                } else {
                    shape[i] + 2
                };
                vec![GUARD; room as usize]
            });
            let mut answer = [UNTOUCHED; 24];
            let room = &mut answer[usize::from(holds(2))..];
            let lists: [&mut [u64]; 2] = [&mut rows, &mut columns];
            let code = raw::table(format, None, settings, shape, cells, lists, room);
            let first = ORDER.into_iter().find(|&number| holds(number));
            let wanted = match first {
                Some(7) => 7 + 256 * 4,
                Some(number) => number,
                None => 0,
            };
            assert_eq!(code, wanted, "{holding:b} {lacking}");
            if code != 0 {
                assert!(rows.iter().chain(&columns).all(|&word| word == GUARD));
                assert_eq!(answer, [UNTOUCHED; 24]);
            }
        }
    }
}

/// The same through the types, where they can say it.
#[test]
fn typed_refusals() {
    let stray = [SIX[0], 0x1_0000];
    check_refused(
        &stray,
        1,
        2,
        Refusal::StrayBit {
            place: 1,
            list: None,
        },
    );
    check_refused(&stray, 1, 3, Refusal::BadShape);
    let mut many = vec![0; LIMIT + 1];
    many[0] = 1 << 63;
    check_refused(&many, 1, 1, Refusal::TooManyElements);
    check_refused(&many, LIMIT + 1, 1, Refusal::TooManyElements);
    let too_many = Err(Refusal::TooManyElements);
    assert_eq!(table(&vec![0f64; LIMIT + 1], LIMIT + 1, 1), too_many);

    // before all these a precision, and before that a format
    let precise = HALVES.with_settings(Settings::new().with_precision(12));
    let refusal = Refusal::PrecisionOutOfRange {
        precision: 12,
        digits: 11,
    };
    for cells in [&many, &stray[..], &[]] {
        assert_eq!(precise.table(cells, usize::MAX, 1), Err(refusal));
    }
    for format in [
        Format::new(Kind::Ieee, 1, 16),
        Format::new(Kind::Finite, 4, 65),
        Format::BINARY16.with_bias(Format::FARTHEST_BIAS + 1),
        Format::BINARY16.with_bias(i64::MIN),
    ] {
        let totals = Totals::of(format).with_settings(precise.settings());
        for cells in [&many, &stray[..], &[]] {
            assert_eq!(totals.table(cells, 0, 1), Err(Refusal::NoSuchFormat));
        }
    }
    // a list that is too short, of either sort, comes before a stray bit
    for (m, n) in [(1, 1), (0, 2), (0, 0)] {
        let (mut rows, mut columns) = (vec![GUARD; m], vec![GUARD; n]);
        let into = HALVES.table_into(&stray, 1, 2, &mut rows, &mut columns);
        assert_eq!(into, Err(Refusal::NoRoom));
        assert!(rows.iter().chain(&columns).all(|&word| word == GUARD));
    }
}

/// With rows and columns exchanged, so are their totals.
#[test]
fn a_table_turned_over() {
    let (rows, columns) = (12, 20);
    let mut draw = Draw(5);
    let cells: Vec<u64> = (0..rows * columns)
        .map(|_| draw.next() & !(1 << 62))
        .collect();
    let turned: Vec<u64> = (0..columns)
        .flat_map(|j| column(&cells, rows, columns, j))
        .collect();
    for rounding in ROUNDINGS {
        let settings = Settings::new().with_rounding(rounding);
        let totals = Totals::of(Format::BINARY64).with_settings(settings);
        let given = totals.table(&cells, rows, columns).unwrap();
        let other = totals.table(&turned, columns, rows).unwrap();
        assert_eq!(given.rows, other.columns);
        assert_eq!(given.columns, other.rows);
        assert_eq!(given.grand, other.grand);
    }
}
