// crates/cap_vet/src/exclusiveness/exclusive.rt without its contracts, by tools/erase: that text is proved, this one is only tested.
//! A message of which no word is used twice.

use crate::cap_frame::Segments;
use crate::cap_vet::nodes::vetted::Vetted;
use crate::rattle::alloc::AllocError;

/// An accepted message of which no word is used twice: the root word, the landing pads of each pointer
/// and the words of each object are all distinct.
pub struct Exclusive<'m, M: Segments> {
    pub(crate) vetted: Vetted<'m, M>,
}

impl<'m, M: Segments> Clone for Exclusive<'m, M> {
    fn clone(&self) -> Exclusive<'m, M> {
        *self
    }
}

impl<'m, M: Segments> Copy for Exclusive<'m, M> {}

impl<'m, M: Segments> Exclusive<'m, M> {
    /// The accepted message, as `vet` gives it.
    pub fn into_vetted(self) -> Vetted<'m, M> {
        self.vetted
    }
}
