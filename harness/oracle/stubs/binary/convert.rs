//! Stub of the missing `binary/convert` module: the methods that the copied
//! `Standard` impl names. No sum and no dot calls them.

use super::Layout;
use crate::env::{Behavior, Flags};
use crate::format::internal::Source;
use crate::format::{Encoding, Storage, Width};
use crate::limbs::Limbs;
use crate::unpacked::Unpacked;

impl<const E: u32, Enc: Encoding, const W: usize> Layout<E, Enc, W>
where
    Width<W>: Storage,
{
    pub fn convert_from<In: Limbs, L: Limbs, B: Behavior>(_value: Unpacked<In>, _source: Source, _behavior: B) -> (L, Flags) {
        unimplemented!("outside the oracle")
    }
}
