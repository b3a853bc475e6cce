//! Lists built from the terms that they are to have: ties, and chains of passes.
//!
//! A term is a sign and m × 2^k. For sums k counts from the lowest bit of the format's least number, for squares and dots from that of its square.

use crate::case::{Case, Operation};
use crate::rng::Rng;
use crate::shape::{Encodings, Shape};

#[derive(Clone, Copy)]
struct Term {
    negative: bool,
    m: u64,
    k: i64,
}

/// Where terms of one list are to lie near each other, none lies further below the others.
const FAR: i64 = 3000;

fn bit(negative: bool, k: i64) -> Term {
    Term { negative, m: 1, k }
}

fn bit_length(m: u64) -> i64 {
    64 - i64::from(m.leading_zeros())
}

/// Builds the terms of one case and puts them into its lists.
pub struct Builder<'a, S: Encodings = Shape> {
    rng: &'a mut Rng,
    case: &'a mut Case<S::Value>,
    shape: S,
    /// The position of the least result's bit.
    grid: i64,
    /// The highest position of a term.
    highest: i64,
    terms: Vec<Term>,
}

impl<'a> Builder<'a> {
    pub fn new(rng: &'a mut Rng, case: &'a mut Case) -> Self {
        let shape = Shape::of(case.format);
        Self::of(rng, case, shape)
    }
}

impl<'a, S: Encodings> Builder<'a, S> {
    /// For the values of a case in these encodings.
    pub fn of(rng: &'a mut Rng, case: &'a mut Case<S::Value>, shape: S) -> Self {
        let top = shape.highest_position();
        let (grid, highest) = if case.is_product() { (shape.position_of_one(), 2 * top) } else { (0, top) };
        Self { rng, case, shape, grid, highest, terms: vec![] }
    }

    fn digits(&self) -> i64 {
        i64::from(self.shape.digits())
    }

    /// The digits that the result is rounded to.
    fn result_digits(&self) -> i64 {
        match self.case.settings[7] {
            0 => self.digits(),
            precision => precision as i64,
        }
    }

    /// A distance that decides something in the passes, or a little more or less: the window's edges (702, 701, 766, 768), the digits left over
    /// (p + 70), the margins (64 to 66), what lies between them; or any.
    fn gap(&mut self) -> i64 {
        let p = self.digits();
        let known = [1, 2, p, p + 1, 64, 65, 66, p + 66, p + 70, 632 - p, 637 - p, 637, 697 - p, 697, 701, 702, 703, 766, 768, 832];
        if self.rng.once_in(4) {
            return self.rng.between(1, 2200);
        }
        (self.rng.pick(&known) + self.rng.between(-3, 3)).max(1)
    }

    /// Where the highest bit of a tie is: at the ends of the results, or anywhere.
    fn tie_top(&mut self, at_ends: bool) -> i64 {
        let fraction = i64::from(self.shape.digits() - 1);
        let top = match self.rng.below(if at_ends { 3 } else { 12 }) {
            0 => self.grid + self.shape.highest_position() + self.rng.between(-2, 0),
            1 => self.grid + fraction + self.rng.between(-3, 3),
            2 => self.grid + self.rng.between(-2, fraction),
            _ => self.rng.between(0, self.highest),
        };
        top.clamp(0, self.highest)
    }

    /// A significand of so many digits: a power of two, all ones, or between.
    fn significand(&mut self, digits: i64) -> u64 {
        let high = 1u64 << (digits - 1);
        let low = high - 1;
        match self.rng.below(5) {
            0 => high,
            1 => high | low,
            2 => high | low & 1,
            3 => high | low & !1,
            _ => high | self.rng.next() & low,
        }
    }

    /// A first value, half a unit of its last digit, and something tiny beside it.
    pub fn tie(&mut self, at_ends: bool) {
        let q = self.result_digits();
        let top = self.tie_top(at_ends);
        let whole_products = self.case.is_dot() && self.rng.once_in(3);
        let last = if whole_products { self.product_on_tie(top, q) } else { self.value_on_tie(top, q) };
        self.tiny(last);
        self.shield(top);
        self.put_all();
    }

    /// A value of q digits and a half of its last digit. Returns the position of the half.
    fn value_on_tie(&mut self, top: i64, q: i64) -> i64 {
        let lowest = top - q + 1;
        let cut = (-lowest).max(0);
        let m = (self.significand(q) >> cut).max(1);
        let k = lowest + cut;
        self.terms.push(Term { negative: false, m, k });
        // the digits of a number below the least normal one end at the grid, unless that is far; tininess after rounding looks below it
        let unit = if self.rng.once_in(4) || self.grid > k + FAR { k } else { k.max(self.grid) };
        self.half(unit - 1);
        unit - 1
    }

    /// A half in one piece or in several, or none.
    fn half(&mut self, at: i64) {
        match self.rng.below(6) {
            0 => self.terms.extend([bit(false, at - 1), bit(false, at - 1)]),
            1 => self.terms.extend([bit(false, at + 1), bit(true, at)]),
            2 => self.terms.extend([bit(false, at - 1), bit(false, at - 2), bit(false, at - 3), bit(false, at - 3)]),
            3 => {}
            _ => self.terms.push(bit(false, at)),
        }
    }

    /// The whole product of two significands, brought to a tie by the difference. Returns the position of the half.
    fn product_on_tie(&mut self, top: i64, q: i64) -> i64 {
        let p = self.digits();
        let (x, y) = (self.significand(p), self.significand(p));
        let product = u128::from(x) * u128::from(y);
        let length = 128 - i64::from(product.leading_zeros());
        let most = self.shape.highest_position() - p + 1;
        let k = (top - length + 1).clamp(0, 2 * most);
        let k_left = self.rng.between((k - most).max(0), k.min(most));
        self.put_pair(false, self.shape.encode(x, k_left), self.shape.encode(y, k - k_left));
        let rest = length - q;
        let half = 1u128 << (rest - 1);
        let below = product & (2 * half - 1);
        self.difference(below > half, below.abs_diff(half), k);
        k + rest - 1
    }

    /// A magnitude of any length, in terms of p digits.
    fn difference(&mut self, negative: bool, mut magnitude: u128, mut k: i64) {
        let p = self.shape.digits();
        while magnitude != 0 {
            let m = (magnitude & ((1 << p) - 1)) as u64;
            if m != 0 {
                self.terms.push(Term { negative, m, k });
            }
            magnitude >>= p;
            k += i64::from(p);
        }
    }

    /// Up to three bits far below the half, of either sign; at times a pair that cancels.
    fn tiny(&mut self, half: i64) {
        let mut at = half;
        for _ in 0..self.rng.below(4) {
            at = (at - self.gap()).max(0);
            let negative = self.rng.bit();
            self.terms.push(bit(negative, at));
            if self.rng.once_in(4) {
                self.terms.push(bit(!negative, at));
            }
        }
    }

    /// Two terms above all others that cancel, so that the first window lies higher.
    fn shield(&mut self, top: i64) {
        let at = top + self.gap();
        if self.rng.once_in(3) && at <= self.highest {
            self.terms.extend([bit(false, at), bit(true, at)]);
        }
    }

    /// Layers of terms, one far below the other, most of which cancel.
    pub fn chain(&mut self) {
        if self.rng.once_in(4) && self.highest < 1 << 13 {
            return self.longest_chain();
        }
        let mut at = if self.rng.bit() { self.highest - self.rng.between(0, 3) } else { self.rng.between(0, self.highest) };
        for _ in 0..2 + self.rng.below(6) {
            self.layer(at.max(0));
            at -= self.gap();
            if at < 0 && self.rng.bit() {
                break;
            }
        }
        self.put_all();
    }

    /// As many passes as the format's range allows. The first window is left with p + 69 digits, one too few to be decided; they end on a tie,
    /// which is the boundary of the passes after; and below each of their edges two terms cancel, but lose a bit in that pass.
    fn longest_chain(&mut self) {
        let p = self.digits();
        let top = self.highest - self.rng.between(0, 2);
        self.terms.extend([bit(false, top), bit(true, top)]);
        let counted = if self.case.is_product() { top + 1 } else { top };
        let mut edge = counted - 702;
        let left = p + 69 - self.rng.between(-1, 2);
        self.terms.extend([bit(false, edge + left - 1), bit(false, edge + left - 1 - p)]);
        edge = edge + left - 766 - 701;
        while edge > 0 {
            let negative = self.rng.bit();
            let at = edge + self.rng.between(-2, 2);
            let k = (at - p / 2).max(0);
            let m = self.significand(p);
            self.terms.extend([Term { negative, m, k }, Term { negative: !negative, m, k }]);
            edge -= 702;
        }
        let last = self.rng.between(0, 60);
        self.terms.push(bit(self.rng.bit(), last));
        self.put_all();
    }

    fn layer(&mut self, top: i64) {
        let negative = self.rng.bit();
        let p = self.digits();
        let length = p.min(top + 1);
        let m = self.significand(length);
        let k = top - length + 1;
        let whole = |negative, m| Term { negative, m, k };
        match self.rng.below(8) {
            0 | 1 => self.terms.extend([whole(negative, m), whole(!negative, m)]),
            2 => self.terms.extend([bit(negative, top), bit(negative, top - p)]),
            3 => self.terms.push(bit(negative, top)),
            4 => self.terms.extend([whole(negative, m), whole(!negative, (m - 1).max(1))]),
            5 => self.terms.extend((0..8).map(|_| bit(negative, top - 3)).chain([bit(!negative, top)])),
            6 => self.stairs(negative, top),
            _ => self.terms.extend([whole(negative, m), bit(negative, k - 1)]),
        }
    }

    /// 2^top less all bits down to one, which alone is left.
    fn stairs(&mut self, negative: bool, top: i64) {
        let steps = self.rng.between(1, 12);
        self.terms.push(bit(negative, top));
        self.terms.extend((1..=steps).map(|i| bit(!negative, top - i)));
    }

    /// A few terms anywhere in the format which cancel or tie, with gaps of up to 2^29 positions between them.
    pub fn wide(&mut self) {
        let top = self.rng.between(0, self.highest);
        self.layer(top);
        let reach = 1i64 << self.rng.between(10, 29);
        let low = (top - self.rng.between(0, reach)).max(0);
        self.layer(low);
        if self.rng.bit() {
            self.terms.push(bit(self.rng.bit(), self.rng.between(low, top)));
        }
        self.put_all();
    }

    /// Puts the terms into the lists, in their order or another, with their signs or the opposite ones.
    fn put_all(&mut self) {
        let mut terms = std::mem::take(&mut self.terms);
        if self.rng.bit() {
            self.rng.shuffle(&mut terms);
        }
        let flip = self.rng.bit();
        for term in terms.iter().filter(|term| term.k >= 0) {
            self.put(Term { negative: term.negative != flip, ..*term });
        }
    }

    /// A term that the format cannot have is left out.
    fn put(&mut self, term: Term) {
        match self.case.operation {
            Operation::Dot => self.put_product(term),
            Operation::Sum(2) => self.put_square(term),
            _ => {
                if let Some(magnitude) = self.shape.encode(term.m, term.k) {
                    self.case.left.push(self.shape.signed(term.negative, magnitude));
                }
            }
        }
    }

    /// m × 2^k as a number times a power of two.
    fn put_product(&mut self, term: Term) {
        let highest = self.shape.highest_position();
        let low = (term.k + bit_length(term.m) - 1 - highest).max(0);
        let high = term.k.min(highest);
        if low <= high {
            let power = self.rng.between(low, high);
            self.put_pair(term.negative, self.shape.encode(term.m, term.k - power), self.shape.encode(1, power));
        }
    }

    /// A pair whose product has this sign; either factor may be the left one.
    fn put_pair(&mut self, negative: bool, x: Option<S::Value>, y: Option<S::Value>) {
        let (Some(x), Some(y)) = (x, y) else { return };
        let (x, y) = if self.rng.bit() { (x, y) } else { (y, x) };
        let left = self.rng.bit();
        self.case.left.push(self.shape.signed(left, x));
        self.case.right.push(self.shape.signed(left != negative, y));
    }

    /// Squares of powers of two: one for a bit at an even position, two for one at an odd position. Only the four highest bits of m are taken.
    fn put_square(&mut self, term: Term) {
        let places = (0..64).rev().filter(|place| term.m >> place & 1 == 1).take(4);
        for place in places {
            let at = term.k + place;
            if let Some(root) = self.shape.encode(1, at / 2) {
                let value = self.shape.signed(term.negative, root);
                self.case.left.extend((0..1 + at % 2).map(|_| value));
            }
        }
    }
}
