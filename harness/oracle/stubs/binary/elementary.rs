//! Stub of the missing `binary/elementary` module: the methods that the copied
//! `Standard` impl names. No sum and no dot calls them.

use super::Layout;
use crate::elementary::{Bivariate, Transcendental};
use crate::env::{Behavior, Flags};
use crate::format::{Encoding, Storage, Width};
use crate::limbs::Limbs;

impl<const E: u32, Enc: Encoding, const W: usize> Layout<E, Enc, W>
where
    Width<W>: Storage,
{
    pub fn elementary<L: Limbs, B: Behavior>(_value: L, _function: Transcendental, _behavior: B) -> (L, Flags) {
        unimplemented!("outside the oracle")
    }

    pub fn bivariate<L: Limbs, B: Behavior>(_left: L, _right: L, _function: Bivariate, _behavior: B) -> (L, Flags) {
        unimplemented!("outside the oracle")
    }
}
