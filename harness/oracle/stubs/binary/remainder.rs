//! Stub of the missing `binary/remainder` module: the methods that the copied
//! `Standard` impl names. No sum and no dot calls them.

use super::Layout;
use crate::env::{Env, Flags};
use crate::format::internal::Quotient;
use crate::format::{Encoding, Storage, Width};
use crate::limbs::Limbs;

impl<const E: u32, Enc: Encoding, const W: usize> Layout<E, Enc, W>
where
    Width<W>: Storage,
{
    pub fn remainder<L: Limbs>(_left: L, _right: L, _quotient: Quotient, _env: &Env) -> (L, Flags) {
        unimplemented!("outside the oracle")
    }
}
