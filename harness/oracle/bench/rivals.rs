//! The ways to a total that are timed beside each other.

use std::hint::black_box;

use fermuzhai::raw;
#[cfg(feature = "original")]
use floaty::{format::Ieee, oracle};

use crate::fsum::Python;
use crate::lists::Lists;
use crate::measure::{Rival, Who};
#[cfg(feature = "mpfr")]
use crate::mpfr;

/// Ties to even, tininess after rounding, every switch off.
const SETTINGS: [u64; 8] = [0, 1, 0, 0, 0, 0, 0, 0];

/// What is asked for: a sum with the number of its summand, or a dot product.
#[derive(Clone, Copy)]
pub enum Operation {
    Sum(u64),
    Dot,
}

#[cfg(feature = "original")]
impl From<Operation> for oracle::Operation {
    fn from(operation: Operation) -> Self {
        match operation {
            Operation::Sum(summand) => Self::Sum(summand),
            Operation::Dot => Self::Dot,
        }
    }
}

/// Gives its items one after the other, and again from the first.
struct Turns<T> {
    items: Vec<T>,
    next: usize,
}

impl<T> Turns<T> {
    fn new(items: impl Iterator<Item = T>) -> Self {
        Self { items: items.collect(), next: 0 }
    }

    fn next(&mut self) -> &mut T {
        let place = self.next;
        self.next = if place + 1 == self.items.len() { 0 } else { place + 1 };
        &mut self.items[place]
    }
}

/// Many results in one number, so that they can be compared.
fn together(results: impl Iterator<Item = u64>) -> Option<u64> {
    Some(results.fold(0, |all, result| all.rotate_left(1) ^ result))
}

fn bytes(words: &[[u64; 1]]) -> Vec<u8> {
    words.iter().flat_map(|[word]| word.to_le_bytes()).collect()
}

/// How often the proved code walks the list after its first reading.
pub fn passes(operation: Operation, lists: &Lists) -> u64 {
    answer([0, 11, 64], operation, &bytes(&lists.left), &bytes(&lists.right))[16].into()
}

fn answer(format: [u64; 3], operation: Operation, left: &[u8], right: &[u8]) -> [u8; 24] {
    let mut answer = [0; 24];
    let refusal = match operation {
        Operation::Sum(summand) => raw::sum(format, SETTINGS, summand, left, &mut answer),
        Operation::Dot => raw::dot(format, SETTINGS, left, right, &mut answer),
    };
    assert_eq!(refusal, 0, "the lists are accepted");
    answer
}

fn ours<'a>(format: [u64; 3], operation: Operation, lists: &[Lists]) -> Rival<'a> {
    let mut turns = Turns::new(lists.iter().map(|lists| (bytes(&lists.left), bytes(&lists.right))));
    let mut call = move || {
        let (left, right) = turns.next();
        answer(format, operation, black_box(left), black_box(right))
    };
    let result = |answer: [u8; 24]| u64::from_le_bytes(answer[..8].try_into().expect("eight bytes"));
    let results = together(lists.iter().map(|_| result(call())));
    Rival::new(Who::Ours, results, call)
}

#[cfg(feature = "original")]
fn original<'a>(lists: &'a [Lists], total: impl Fn(&[[u64; 1]], &[[u64; 1]]) -> u64 + 'a) -> Rival<'a> {
    let mut turns = Turns::new(lists.iter());
    let mut call = move || {
        let lists = turns.next();
        total(black_box(&lists.left), black_box(&lists.right))
    };
    let results = together(lists.iter().map(|_| call()));
    Rival::new(Who::Original, results, call)
}

#[cfg(feature = "mpfr")]
fn mpfr<'a>(lists: &[Lists]) -> Rival<'a> {
    let mut turns = Turns::new(lists.iter().map(|lists| mpfr::List::new(&lists.left)));
    let results = together(turns.items.iter_mut().map(|list| {
        list.sum();
        list.result()
    }));
    Rival::new(Who::Mpfr, results, move || turns.next().sum())
}

/// From doubles, as a caller has them: each is made into a number within the time.
#[cfg(feature = "mpfr")]
fn mpfr_set<'a>(lists: &'a [Lists]) -> Rival<'a> {
    let mut turns = Turns::new(lists.iter().map(|lists| (mpfr::List::new(&lists.left), &lists.left)));
    let results = together(turns.items.iter_mut().map(|(list, words)| {
        list.sum_of(words);
        list.result()
    }));
    Rival::new(Who::MpfrSet, results, move || {
        let (list, words) = turns.next();
        list.sum_of(black_box(words))
    })
}

/// None where fsum raises.
fn fsum<'a>(lists: &[Lists], python: &'a mut Python) -> Option<Rival<'a>> {
    let [lists] = lists else { return None };
    let result = python.list(&lists.left)?;
    Some(Rival { who: Who::Fsum, exact: Some(result), batch: Box::new(|calls| python.batch(calls)) })
}

#[inline(never)]
fn plain_total(operation: Operation, left: &[f64], right: &[f64]) -> f64 {
    let mut total = 0.0;
    match operation {
        Operation::Sum(0) => left.iter().for_each(|value| total += value),
        Operation::Sum(_) => left.iter().for_each(|value| total += value * value),
        Operation::Dot => left.iter().zip(right).for_each(|(left, right)| total += left * right),
    }
    total
}

fn plain<'a>(operation: Operation, lists: &[Lists]) -> Rival<'a> {
    let values = |words: &[[u64; 1]]| words.iter().map(|&[word]| f64::from_bits(word)).collect::<Vec<f64>>();
    let mut turns = Turns::new(lists.iter().map(|lists| (values(&lists.left), values(&lists.right))));
    Rival::new(Who::Plain, None, move || {
        let (left, right) = turns.next();
        plain_total(operation, black_box(left), black_box(right))
    })
}

/// All who compute the total in binary64, of one list or of several in turn. MPFR and `fsum` sum values, and nothing else; `fsum` takes one list.
pub fn binary64<'a>(operation: Operation, lists: &'a [Lists], python: Option<&'a mut Python>) -> Vec<Rival<'a>> {
    let mut rivals = vec![ours([0, 11, 64], operation, lists)];
    #[cfg(feature = "original")]
    rivals.push(original(lists, move |left, right| oracle::plain::<11, Ieee, 64>(operation.into(), left, right, &SETTINGS)));
    if matches!(operation, Operation::Sum(0)) {
        #[cfg(feature = "mpfr")]
        rivals.extend([mpfr(lists), mpfr_set(lists)]);
        rivals.extend(python.and_then(|python| fsum(lists, python)));
    }
    rivals.push(plain(operation, lists));
    rivals
}

/// Our sum, and where asked for the other exact ones of this process.
pub fn sums(lists: &[Lists], others: bool) -> Vec<Rival<'_>> {
    if !others {
        return vec![ours([0, 11, 64], Operation::Sum(0), lists)];
    }
    let mut rivals = binary64(Operation::Sum(0), lists, None);
    rivals.retain(|rival| !matches!(rival.who, Who::Plain | Who::MpfrSet));
    rivals
}

/// The two who know a format with 28 exponent bits.
pub fn gap(lists: &[Lists]) -> Vec<Rival<'_>> {
    vec![
        ours([0, 28, 30], Operation::Sum(0), lists),
        #[cfg(feature = "original")]
        original(lists, |left, right| oracle::plain::<28, Ieee, 30>(oracle::Operation::Sum(0), left, right, &SETTINGS)),
    ]
}
