// crates/cap_vet/src/strictness/strict.rt without its contracts, by tools/erase: that text is proved, this one is only tested.
//! A message without the forms that common readers reject.

use crate::cap_frame::Segments;
use crate::cap_vet::nodes::vetted::Vetted;
use crate::rattle::alloc::AllocError;

/// An accepted message of at most 511 segments, without the pointers that common readers reject. So
/// none has a landing pad of one word that is zero or a capability, and none leads to an object in
/// a segment without words (profile).
pub struct Strict<'m, M: Segments> {
    pub(crate) vetted: Vetted<'m, M>,
}

impl<'m, M: Segments> Clone for Strict<'m, M> {
    fn clone(&self) -> Strict<'m, M> {
        *self
    }
}

impl<'m, M: Segments> Copy for Strict<'m, M> {}

impl<'m, M: Segments> Strict<'m, M> {
    /// The accepted message, as `vet` gives it.
    pub fn into_vetted(self) -> Vetted<'m, M> {
        self.vetted
    }
}
