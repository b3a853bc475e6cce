//! GNU MPFR's correctly rounded sum.

use std::ffi::{c_int, c_long, c_ulong};
use std::mem::MaybeUninit;

/// `mpfr_t` of mpfr.h.
#[repr(C)]
struct Number {
    precision: c_long,
    sign: c_int,
    exponent: c_long,
    limbs: *mut c_ulong,
}

#[link(name = "mpfr")]
unsafe extern "C" {
    fn mpfr_init2(number: *mut Number, precision: c_long);
    fn mpfr_clear(number: *mut Number);
    fn mpfr_set_d(number: *mut Number, value: f64, rounding: c_int) -> c_int;
    fn mpfr_get_d(number: *const Number, rounding: c_int) -> f64;
    fn mpfr_sum(result: *mut Number, values: *const *mut Number, count: c_ulong, rounding: c_int) -> c_int;
}

const NEAREST: c_int = 0;

fn number(value: f64) -> *mut Number {
    let place = Box::into_raw(Box::new(MaybeUninit::<Number>::uninit())).cast::<Number>();
    // SAFETY: the place is large enough for an mpfr_t, and mpfr_init2 fills it before it is read.
    unsafe {
        mpfr_init2(place, 53);
        mpfr_set_d(place, value, NEAREST);
    }
    place
}

/// A list of numbers of 53 bits, and the result.
pub struct List {
    values: Vec<*mut Number>,
    result: *mut Number,
}

impl List {
    pub fn new(words: &[[u64; 1]]) -> Self {
        Self { values: words.iter().map(|&[word]| number(f64::from_bits(word))).collect(), result: number(0.0) }
    }

    pub fn sum(&mut self) -> c_int {
        // SAFETY: every pointer is an mpfr_t made by `number`.
        unsafe { mpfr_sum(self.result, self.values.as_ptr(), self.values.len() as c_ulong, NEAREST) }
    }

    /// The same from doubles, which are made into numbers first.
    pub fn sum_of(&mut self, words: &[[u64; 1]]) -> c_int {
        for (&number, &[word]) in self.values.iter().zip(words) {
            // SAFETY: the number was made by `number`.
            unsafe { mpfr_set_d(number, f64::from_bits(word), NEAREST) };
        }
        self.sum()
    }

    pub fn result(&self) -> u64 {
        // SAFETY: as in `sum`.
        unsafe { mpfr_get_d(self.result, NEAREST) }.to_bits()
    }
}

impl Drop for List {
    fn drop(&mut self) {
        for &number in self.values.iter().chain([&self.result]) {
            // SAFETY: each was made by `number`, and is dropped here alone.
            unsafe {
                mpfr_clear(number);
                drop(Box::from_raw(number.cast::<MaybeUninit<Number>>()));
            }
        }
    }
}
