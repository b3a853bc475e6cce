//! One case, looked at from every side: the refusal, the result, flags and passes, which way the result leans, each byte of the buffers, and a
//! rearranged list.

use std::fmt::{Debug, LowerHex};
use std::panic::{AssertUnwindSafe, catch_unwind};

use crate::case::{Case, Format, Operation};
use crate::entries;
use crate::leaning::leaning;
use crate::refusals::{Expected, Side, expected, is_stray};
use crate::rng::Rng;
use crate::shape::Shape;
use crate::tally::Tally;

/// What the original answers.
#[derive(Clone, Copy, Debug, PartialEq, Eq)]
pub struct Answer<V = u64> {
    pub result: V,
    pub flags: u8,
    pub passes: u64,
}

/// The original: the formats that it was compiled for, and its totals. It is asked about accepted cases only.
pub struct Oracle<'a> {
    pub formats: Vec<Format>,
    pub total: &'a (dyn Fn(&Case) -> Answer + Sync),
    /// The totals of values of ten bytes.
    pub extended: &'a (dyn Fn(&Case<u128>) -> Answer<u128> + Sync),
}

/// The values of a list: how they lie in bytes, and what is expected of a call with them.
pub trait Value: Copy + Debug + PartialEq + LowerHex + Into<u128> {
    /// The bytes of a value, and of an answer.
    const SIZE: usize;
    const ANSWER: usize;

    /// Its bytes first.
    fn bytes(self) -> [u8; 16];

    fn expected(case: &Case<Self>) -> Expected;

    /// Whether it does not fit the width.
    fn is_stray(self, width: u64) -> bool;

    /// The original's answer.
    fn total(oracle: &Oracle, case: &Case<Self>) -> Answer<Self>;

    /// The record in the bytes that an accepted call wrote, and the side, which is that of the exact sum.
    fn read_answer(case: &Case<Self>, written: &[u8]) -> Result<(Answer<Self>, u8), String>;

    /// Whether the elements, or the pairs, may stand in any order.
    fn has_any_order(case: &Case<Self>) -> bool;

    fn count(case: &Case<Self>, seen: &Seen, tally: &mut Tally);
}

impl Value for u64 {
    const SIZE: usize = 8;
    const ANSWER: usize = 24;

    fn bytes(self) -> [u8; 16] {
        u128::from(self).to_le_bytes()
    }

    fn expected(case: &Case) -> Expected {
        expected(case)
    }

    fn is_stray(self, width: u64) -> bool {
        is_stray(self, width)
    }

    fn total(oracle: &Oracle, case: &Case) -> Answer {
        (oracle.total)(case)
    }

    fn read_answer(case: &Case, written: &[u8]) -> Result<(Answer, u8), String> {
        read_answer(case, written)
    }

    fn has_any_order(case: &Case) -> bool {
        !has_nan(case)
    }

    fn count(case: &Case, seen: &Seen, tally: &mut Tally) {
        tally.add(case, seen);
    }
}

/// What a case without a difference showed.
#[derive(Clone, Copy, Debug)]
pub enum Seen {
    Refused(u64),
    Accepted { result: u128, flags: u8, passes: u64, side: u8, rearranged: bool },
}

/// The two entries to compare, as functions of a case's numbers and bytes. Tests put others in their place.
pub type Sum = fn(Format, [u64; 8], u64, &[u8], &mut [u8]) -> u64;
pub type Dot = fn(Format, [u64; 8], &[u8], &[u8], &mut [u8]) -> u64;

/// Buffers that serve one case after another.
pub struct Bench {
    sum: Sum,
    dot: Dot,
    left: Vec<u8>,
    right: Vec<u8>,
    answer: Vec<u8>,
    /// The answer of the case, for others that are to have the same.
    first: Vec<u8>,
}

impl Default for Bench {
    fn default() -> Self {
        Self::with(entries::sum, entries::dot)
    }
}

/// Every buffer starts so many bytes behind an aligned address.
pub fn skew<V>(case: &Case<V>) -> usize {
    usize::from(case.fill % 8)
}

/// Bytes behind the answer buffer that nobody is to touch.
const GUARD: usize = 32;

/// What byte `i` holds before the call. It differs from byte to byte, so that a shifted copy shows.
pub fn fill<V>(case: &Case<V>, i: usize) -> u8 {
    case.fill.wrapping_add((i as u8).wrapping_mul(37))
}

/// Writes the values' bytes, and behind them `behind` bytes more.
fn lay_out<V: Value>(values: &[V], skew: usize, behind: usize, bytes: &mut Vec<u8>) {
    bytes.clear();
    bytes.resize(skew, 0x5c);
    for value in values {
        bytes.extend_from_slice(&value.bytes()[..V::SIZE]);
    }
    bytes.resize(skew + V::SIZE * values.len() + behind, 0x5c);
}

fn is_laid_out<V: Value>(values: &[V], skew: usize, bytes: &[u8]) -> bool {
    bytes[skew..].chunks_exact(V::SIZE).zip(values).all(|(chunk, value)| *chunk == value.bytes()[..V::SIZE])
}

fn word(bytes: &[u8], at: usize) -> u64 {
    u64::from_le_bytes(bytes[at..at + 8].try_into().expect("eight bytes"))
}

impl Bench {
    pub fn with(sum: Sum, dot: Dot) -> Self {
        Self { sum, dot, left: vec![], right: vec![], answer: vec![], first: vec![] }
    }

    /// Calls the entry with the case's bytes.
    fn call<V: Value>(&mut self, case: &Case<V>) -> u64 {
        let skew = skew(case);
        lay_out(&case.left, skew, case.behind[0], &mut self.left);
        lay_out(&case.right, skew, case.behind[1], &mut self.right);
        self.answer.clear();
        self.answer.extend((0..skew + case.room + GUARD).map(|i| fill(case, i)));
        let answer = &mut self.answer[skew..skew + case.room];
        match case.operation {
            Operation::Sum(summand) => (self.sum)(case.format, case.settings, summand, &self.left[skew..], answer),
            Operation::Dot => (self.dot)(case.format, case.settings, &self.left[skew..], &self.right[skew..], answer),
        }
    }

    /// The bytes of the answer.
    fn written<V: Value>(&self, case: &Case<V>) -> &[u8] {
        &self.answer[skew(case)..skew(case) + V::ANSWER]
    }

    /// Nothing was written but the answer of an accepted call.
    fn check_untouched<V: Value>(&self, case: &Case<V>, accepted: bool) -> Result<(), String> {
        let skew = skew(case);
        if !is_laid_out(&case.left, skew, &self.left) || !is_laid_out(&case.right, skew, &self.right) {
            return Err("the bytes of a list were changed".to_string());
        }
        let written = if accepted { skew..skew + V::ANSWER } else { 0..0 };
        let touched = (0..self.answer.len()).find(|i| !written.contains(i) && self.answer[*i] != fill(case, *i));
        match touched {
            Some(i) => Err(format!("byte {} of the answer buffer was written", i as i64 - skew as i64)),
            None => Ok(()),
        }
    }

    /// Checks one case. An error says what differs.
    pub fn check<V: Value>(&mut self, case: &Case<V>, oracle: &Oracle) -> Result<Seen, String> {
        let code = self.call(case);
        let wanted = V::expected(case);
        self.check_untouched(case, wanted == Expected::Accepted)?;
        match wanted {
            Expected::Accepted if code == 0 => self.check_accepted(case, oracle),
            Expected::Refused(number) if code == number => Ok(Seen::Refused(number)),
            Expected::Stray(side) if code % 256 == 7 => check_place(case, side, code / 256),
            _ => Err(format!("expected {wanted:?}, but {code} was returned")),
        }
    }

    fn check_accepted<V: Value>(&mut self, case: &Case<V>, oracle: &Oracle) -> Result<Seen, String> {
        let (answer, side) = V::read_answer(case, self.written(case))?;
        let Ok(original) = catch_unwind(AssertUnwindSafe(|| V::total(oracle, case))) else {
            return Err(format!("the original panics, where the answer is {answer:x?}"));
        };
        if original != answer {
            return Err(format!("the original answers {original:x?}, the archive {answer:x?}"));
        }
        self.first.clear();
        self.first.extend_from_slice(&self.answer[skew(case)..skew(case) + V::ANSWER]);
        let rearranged = case.left.len() > 1 && V::has_any_order(case);
        if rearranged {
            self.check_same("rearranged to", &in_another_order(case))?;
        }
        if case.format.names_its_own() {
            self.check_same("without the bias", &Case { format: Format::plain(case.format.numbers), ..case.clone() })?;
        }
        Ok(Seen::Accepted { result: answer.result.into(), flags: answer.flags, passes: answer.passes, side, rearranged })
    }

    /// Another case gives the same bytes of answer as the one before, which `first` holds.
    fn check_same<V: Value>(&mut self, how: &str, other: &Case<V>) -> Result<(), String> {
        let code = self.call(other);
        let written = self.written(other);
        if code != 0 || written != self.first {
            return Err(format!("{how} {other}: returned {code}, {written:02x?} against {:02x?}", self.first));
        }
        Ok(())
    }
}

/// The record in the bytes that an accepted call wrote, and the side, which is that of the exact sum.
pub fn read_answer(case: &Case, written: &[u8]) -> Result<(Answer, u8), String> {
    let [flags, 0, side, 0, 0, 0, 0, 0] = written[8..16] else {
        return Err(format!("bytes 8 to 15 of the answer are {:?}", &written[8..16]));
    };
    let answer = Answer { result: word(written, 0), flags, passes: word(written, 16) };
    let wanted = leaning(case, answer.result);
    if side != wanted {
        return Err(format!("side {side} of {answer:x?}, and by the exact sum it is {wanted}"));
    }
    Ok((answer, side))
}

/// Number 7's place is the lowest index of an element of that list with a stray bit.
pub fn check_place<V: Value>(case: &Case<V>, side: Side, place: u64) -> Result<Seen, String> {
    let list = if side == Side::Left { &case.left } else { &case.right };
    match list.iter().position(|value| value.is_stray(case.format.width())) {
        Some(first) if first as u64 == place => Ok(Seen::Refused(7)),
        first => Err(format!("refusal 7 of the {side:?} list names place {place}, and the first is {first:?}")),
    }
}

pub fn has_nan(case: &Case) -> bool {
    let shape = Shape::of(case.format);
    case.left.iter().chain(&case.right).any(|&value| shape.is_nan(value))
}

/// The same elements, or pairs of elements, in another order.
fn in_another_order<V: Value>(case: &Case<V>) -> Case<V> {
    let mut order: Vec<usize> = (0..case.left.len()).collect();
    Rng::new(case.order, 0, 0).shuffle(&mut order);
    let take = |list: &[V]| order.iter().map(|&i| list[i]).collect();
    let mut other = Case::new(case.format, case.settings, case.operation);
    other.left = take(&case.left);
    if case.is_dot() {
        other.right = take(&case.right);
    }
    other.fill = !case.fill;
    other
}

#[cfg(test)]
pub mod tests {
    use fermuzhai::raw;

    use super::{Answer, Bench, Oracle, Seen, word};
    use crate::biases;
    use crate::case::{Case, Format, LIMIT, Operation};
    use crate::entries;
    use crate::lists;
    use crate::refusals::{Expected, expected, is_stray};
    use crate::refused::refused;
    use crate::rng::Rng;
    use crate::shrink::shrink;
    use crate::table::Table;

    const BINARY16: Format = Format::plain([0, 5, 16]);

    /// The archive itself in the place of the original.
    pub fn archive(case: &Case) -> Answer {
        let mut answer = [0; 24];
        let bytes = |list: &[u64]| raw::bytes(list);
        match case.operation {
            Operation::Sum(summand) => entries::sum(case.format, case.settings, summand, &bytes(&case.left), &mut answer),
            Operation::Dot => entries::dot(case.format, case.settings, &bytes(&case.left), &bytes(&case.right), &mut answer),
        };
        Answer { result: word(&answer, 0), flags: answer[8], passes: word(&answer, 16) }
    }

    /// The same for values of ten bytes.
    pub fn archive_extended(case: &Case<u128>) -> Answer<u128> {
        let mut answer = [0; 32];
        let bytes = |list: &[u128]| list.iter().flat_map(|value| value.to_le_bytes()[..10].to_vec()).collect::<Vec<u8>>();
        match case.operation {
            Operation::Sum(summand) => entries::sum(case.format, case.settings, summand, &bytes(&case.left), &mut answer),
            Operation::Dot => entries::dot(case.format, case.settings, &bytes(&case.left), &bytes(&case.right), &mut answer),
        };
        let head = u128::from(word(&answer, 2) >> 48) << 64;
        Answer { result: head | u128::from(word(&answer, 0)), flags: answer[10], passes: word(&answer, 24) }
    }

    fn oracle(total: &(dyn Fn(&Case) -> Answer + Sync)) -> Oracle<'_> {
        Oracle { formats: vec![BINARY16], total, extended: &archive_extended }
    }

    /// Formats at the ends of every range.
    const FORMATS: [[u64; 3]; 10] =
        [[0, 2, 4], [0, 11, 64], [0, 28, 30], [0, 28, 64], [1, 2, 64], [1, 4, 8], [2, 2, 4], [2, 8, 32], [3, 2, 64], [3, 15, 17]];

    fn drawn(format: Format, number: u64) -> Case {
        let rng = &mut Rng::new(7, 7, number);
        match number % 8 {
            0 => lists::random(rng, format),
            1 => lists::ties(rng, format),
            2 => lists::ties_at_the_ends(rng, format),
            3 => lists::chains(rng, format),
            4 => lists::cancellations(rng, format),
            5 => lists::specials(rng, format),
            6 if format.exponent_bits() > 15 => lists::wide(rng, format),
            _ => refused(rng, format),
        }
    }

    #[test]
    fn the_archive_keeps_the_table_the_buffers_and_the_order() {
        let mut bench = Bench::default();
        for number in 0..20_000 {
            let case = drawn(Format::plain(FORMATS[number as usize / 8 % FORMATS.len()]), number);
            if let Err(what) = bench.check(&case, &oracle(&archive)) {
                panic!("case {number}, {case}: {what}");
            }
        }
    }

    /// What lies at the ends of the range and beside 0, and what makes 1 no number of the format.
    const BIASES: [i64; 11] = [0, 1, -1, 11, 40, -40, 2000, -2000, 1 << 27, 1 << 28, -(1 << 28)];

    fn biased(number: u64) -> Case {
        let (place, rng) = (number as usize / 4, &mut Rng::new(7, 8, number));
        let format = Format::biased(FORMATS[place % FORMATS.len()], BIASES[place % BIASES.len()]);
        match number % 4 {
            0 => biases::own(rng, format),
            1 => biases::out_of_range(rng, format),
            _ => biases::named(rng, format),
        }
    }

    #[test]
    fn the_archive_keeps_them_in_formats_that_name_a_bias() {
        let mut bench = Bench::default();
        for number in 0..20_000 {
            let case = biased(number);
            if let Err(what) = bench.check(&case, &oracle(&archive)) {
                panic!("case {number}, {case}: {what}");
            }
        }
    }

    /// Zeros that nobody wrote, more than any list that is drawn has: they take no memory, and are refused unread.
    #[test]
    fn too_many_elements() {
        let bytes = vec![0; 8 * (LIMIT + 1)];
        let mut answer = [0xa5; 24];
        let mut case: Case = Case::new(BINARY16, [0; 8], Operation::Dot);
        case.left = vec![0; LIMIT + 1];
        case.right = vec![0; LIMIT + 1];
        assert_eq!(expected(&case), Expected::Refused(6));
        assert_eq!(entries::dot(BINARY16, [0; 8], &bytes, &bytes, &mut answer), 6);
        case.right.pop();
        assert_eq!(expected(&case), Expected::Refused(5));
        assert_eq!(entries::dot(BINARY16, [0; 8], &bytes, &bytes[8..], &mut answer), 5);
        case.operation = Operation::Sum(0);
        assert_eq!(expected(&case), Expected::Refused(6));
        assert_eq!(entries::sum(BINARY16, [0; 8], 0, &bytes, &mut answer), 6);
        let table = Table { sum: case, shape: [1, LIMIT as u64 + 1], lent: [0, 0] };
        assert_eq!(table.expected(), Expected::Refused(6));
        assert_eq!(entries::table(BINARY16, [0; 8], table.shape, &table.sum.left, [&mut [], &mut []], &mut answer), 6);
        assert_eq!(answer, [0xa5; 24]);
    }

    #[test]
    fn a_difference_is_found_and_shrunk() {
        // wrong where the list holds 1 and rounds toward zero
        let wrong = |case: &Case| {
            let mut answer = archive(case);
            if case.left.contains(&0x3c00) && case.settings[0] == 5 {
                answer.flags ^= 16;
            }
            answer
        };
        let mut case: Case = Case::new(BINARY16, [5, 1, 2, 1, 0, 0, 1, 3], Operation::Sum(1));
        case.left = vec![1, 0x3c00, 0x7bff, 0x3c00, 0x8001];
        let mut bench = Bench::default();
        assert!(bench.check(&case, &oracle(&wrong)).is_err());
        let smallest = shrink(case, &mut |case| bench.check(case, &oracle(&wrong)).is_err());
        assert_eq!(smallest.left, [0x3c00]);
        assert_eq!(smallest.settings, [5, 0, 0, 0, 0, 0, 0, 0]);
        assert_eq!(smallest.operation, Operation::Sum(0));
    }

    #[test]
    fn a_panic_of_the_original_is_a_difference() {
        let case: Case = Case::new(BINARY16, [0; 8], Operation::Dot);
        assert!(Bench::default().check(&case, &oracle(&|_| panic!("on purpose"))).is_err());
    }

    type Bytes<'a> = &'a mut [u8];

    /// Whether some drawn case shows that this is not the archive's sum.
    fn is_caught(sum: super::Sum) -> bool {
        let mut bench = Bench::with(sum, entries::dot);
        (0..20_000).any(|number| bench.check(&drawn(BINARY16, number), &oracle(&archive)).is_err())
    }

    fn writes_one_byte_more(f: Format, c: [u64; 8], u: u64, values: &[u8], answer: Bytes) -> u64 {
        let code = entries::sum(f, c, u, values, answer);
        if let (0, Some(byte)) = (code, answer.get_mut(24)) {
            *byte = 0;
        }
        code
    }

    fn clears_the_buffer_first(f: Format, c: [u64; 8], u: u64, values: &[u8], answer: Bytes) -> u64 {
        answer.iter_mut().take(24).for_each(|byte| *byte = 0);
        entries::sum(f, c, u, values, answer)
    }

    fn refuses_a_full_precision(f: Format, c: [u64; 8], u: u64, values: &[u8], answer: Bytes) -> u64 {
        if c[7] == 11 && f == BINARY16 { 4 } else { entries::sum(f, c, u, values, answer) }
    }

    fn reads_settings_as_bytes(f: Format, c: [u64; 8], u: u64, values: &[u8], answer: Bytes) -> u64 {
        entries::sum(f, c.map(|n| n & 0xff), u, values, answer)
    }

    fn names_the_place_after(f: Format, c: [u64; 8], u: u64, values: &[u8], answer: Bytes) -> u64 {
        let code = entries::sum(f, c, u, values, answer);
        if code % 256 == 7 { code + 256 } else { code }
    }

    /// Another element with a stray bit, but not the first.
    fn names_the_last_place(f: Format, c: [u64; 8], u: u64, values: &[u8], answer: Bytes) -> u64 {
        let code = entries::sum(f, c, u, values, answer);
        if code % 256 != 7 {
            return code;
        }
        let words = values.chunks_exact(8).map(|bytes| u64::from_le_bytes(bytes.try_into().unwrap()));
        7 + 256 * (words.enumerate().filter(|&(_, word)| is_stray(word, f.width())).last().unwrap().0 as u64)
    }

    /// 1 and 2 exchanged below zero, as if the side were one of magnitudes.
    fn leans_by_magnitude(f: Format, c: [u64; 8], u: u64, values: &[u8], answer: Bytes) -> u64 {
        let code = entries::sum(f, c, u, values, answer);
        if code == 0 && answer[7 - (64 - f.width() as usize) / 8] & 0x80 != 0 && [1, 2].contains(&answer[10]) {
            answer[10] = 3 - answer[10];
        }
        code
    }

    fn leans_before_denormals_are_zero(f: Format, c: [u64; 8], u: u64, values: &[u8], answer: Bytes) -> u64 {
        let mut other = [0; 24];
        let code = entries::sum(f, c, u, values, answer);
        if code == 0 && entries::sum(f, [c[0], c[1], c[2], c[3], c[4], 0, c[6], c[7]], u, values, &mut other) == 0 {
            answer[10] = other[10];
        }
        code
    }

    fn has_no_side(f: Format, c: [u64; 8], u: u64, values: &[u8], answer: Bytes) -> u64 {
        let code = entries::sum(f, c, u, values, answer);
        if code == 0 {
            answer[10] = 0;
        }
        code
    }

    fn has_its_side_in_byte_9(f: Format, c: [u64; 8], u: u64, values: &[u8], answer: Bytes) -> u64 {
        let code = entries::sum(f, c, u, values, answer);
        if code == 0 {
            answer.swap(9, 10);
        }
        code
    }

    fn answers_by_the_first_element(f: Format, c: [u64; 8], u: u64, values: &[u8], answer: Bytes) -> u64 {
        let code = entries::sum(f, c, u, values, answer);
        if code == 0 && values.len() == 24 && values[0] > values[8] {
            answer[16] ^= 1;
        }
        code
    }

    #[test]
    fn wrong_entries_are_caught() {
        assert!(!is_caught(entries::sum));
        assert!(is_caught(writes_one_byte_more));
        assert!(is_caught(clears_the_buffer_first));
        assert!(is_caught(refuses_a_full_precision));
        assert!(is_caught(reads_settings_as_bytes));
        assert!(is_caught(names_the_place_after));
        assert!(is_caught(names_the_last_place));
        assert!(is_caught(leans_by_magnitude));
        assert!(is_caught(leans_before_denormals_are_zero));
        assert!(is_caught(has_no_side));
        assert!(is_caught(has_its_side_in_byte_9));
        assert!(is_caught(answers_by_the_first_element));
    }

    /// Whether some drawn case with a bias shows that this is not the archive's sum, or dot.
    fn is_bias_caught(sum: super::Sum, dot: super::Dot) -> bool {
        let mut bench = Bench::with(sum, dot);
        (0..20_000).any(|number| bench.check(&biased(number), &oracle(&archive)).is_err())
    }

    fn with_bias(f: Format, other: fn(i64) -> i64) -> Format {
        Format { bias: f.bias.map(other), ..f }
    }

    /// Sums, and then dots, that read the bias wrongly.
    #[test]
    fn wrong_biases_are_caught() {
        assert!(!is_bias_caught(entries::sum, entries::dot));
        assert!(is_bias_caught(|f, c, u, values, answer| entries::sum(with_bias(f, |b| b.wrapping_add(1)), c, u, values, answer), entries::dot));
        assert!(is_bias_caught(|f, c, u, values, answer| entries::sum(with_bias(f, i64::saturating_abs), c, u, values, answer), entries::dot));
        assert!(is_bias_caught(|f, c, u, values, answer| entries::sum(with_bias(f, |b| b as i32 as i64), c, u, values, answer), entries::dot));
        assert!(is_bias_caught(|f, c, u, values, answer| entries::sum(with_bias(f, |b| b.min(1 << 28)), c, u, values, answer), entries::dot));
        assert!(is_bias_caught(|f, c, u, values, answer| entries::sum(Format::plain(f.numbers), c, u, values, answer), entries::dot));
        assert!(is_bias_caught(entries::sum, |f, c, x, y, answer| entries::dot(with_bias(f, |b| b.wrapping_sub(1)), c, x, y, answer)));
        assert!(is_bias_caught(entries::sum, |f, c, x, y, answer| entries::dot(with_bias(f, i64::wrapping_neg), c, x, y, answer)));
        assert!(is_bias_caught(entries::sum, |f, c, x, y, answer| entries::dot(with_bias(f, |b| b.max(-1 << 28)), c, x, y, answer)));
        assert!(is_bias_caught(entries::sum, |f, c, x, y, answer| entries::dot(Format::plain(f.numbers), c, x, y, answer)));
    }

    #[test]
    fn biases_outside_their_range_get_3_after_1_and_2() {
        let mut bench = Bench::default();
        for (bias, operation) in
            [(1 << 28 | 1, Operation::Sum(0)), (-(1 << 28 | 1), Operation::Dot), (i64::MAX, Operation::Dot), (i64::MIN, Operation::Sum(2))]
        {
            let mut refusal = |case: &Case| match bench.check(case, &oracle(&archive)) {
                Ok(Seen::Refused(number)) => number,
                other => panic!("{case}: {other:?}"),
            };
            let mut case: Case = Case::new(Format::biased([0, 5, 16], bias), [8; 8], operation);
            assert_eq!(refusal(&case), 3);
            case.room = 23;
            assert_eq!(refusal(&case), 2);
            case.behind[usize::from(case.is_dot())] = 1;
            assert_eq!(refusal(&case), 1);
        }
    }

    #[test]
    fn a_bias_at_the_end_of_the_range_that_is_refused_is_caught() {
        let refuses: super::Sum = |f, c, u, values, answer| if f.bias == Some(-1 << 28) { 3 } else { entries::sum(f, c, u, values, answer) };
        assert!(is_bias_caught(refuses, entries::dot));
    }

    /// An archive and an original that are wrong alike, where any bias is named.
    #[test]
    fn the_kinds_own_bias_is_held_to_none() {
        let alike = |case: &Case| {
            let answer = archive(case);
            Answer { passes: answer.passes + u64::from(case.format.bias.is_some()), ..answer }
        };
        let sum: super::Sum = |f, c, u, values, answer| {
            let code = entries::sum(f, c, u, values, answer);
            answer[16] += u8::from(code == 0 && f.bias.is_some());
            code
        };
        let mut bench = Bench::with(sum, entries::dot);
        let mut case: Case = Case::new(Format::biased([0, 5, 16], 14), [0; 8], Operation::Sum(0));
        case.left = vec![0x3c00];
        assert!(bench.check(&case, &oracle(&alike)).is_ok());
        case.format.bias = Some(15);
        assert!(bench.check(&case, &oracle(&alike)).is_err());
    }
}
