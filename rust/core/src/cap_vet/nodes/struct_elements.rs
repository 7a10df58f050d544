// crates/cap_vet/src/nodes/struct_elements.rt without its contracts, by tools/erase: that text is proved, this one is only tested.
//! The elements of a list of structs at which paths go on.

use crate::cap_frame::{words_before, Segments};
use crate::cap_vet::nodes::found::{element, Found};
use crate::cap_vet::nodes::near_found::found_near;
use crate::cap_vet::nodes::view::View;
use crate::rattle::alloc::AllocError;

/// The elements of the list of structs that the first steps of several paths lead to, in a message
/// that needn't be vetted (encoding: Lists). Where each of them is follows from its number.
pub struct StructElements<'m, M: Segments> {
    pub(crate) message: &'m M,
    // The first one starts at this word of this segment.
    pub(crate) segment: u32,
    pub(crate) first: u32,
    // How many there are, and the sizes of each.
    pub(crate) count: u32,
    pub(crate) data_words: u16,
    pub(crate) pointers: u16,
    // How many words may still be charged.
    pub(crate) left: u64,
    // The level of what their pointers lead to, and the depth limit.
    pub(crate) level: u64,
    pub(crate) depth: u32,
}

impl<'m, M: Segments> Clone for StructElements<'m, M> {
    fn clone(&self) -> StructElements<'m, M> {
        *self
    }
}

impl<'m, M: Segments> Copy for StructElements<'m, M> {}

impl<'m, M: Segments> StructElements<'m, M> {
    /// How many words of the message come before the segment of the elements, where the segments
    /// follow one another (encoding: Serialization Over a Stream). One step for each of the segments
    /// before it. Allocates nothing.
    pub fn words_before(&self) -> u64 {
        words_before(self.message, self.segment)
    }

    /// Element `i`, as [`PathStart::get`](crate::PathStart::get) gives it for this step alone. `None`
    /// if the list has no such element. Allocates nothing.
    #[inline(always)]
    pub fn element(&self, i: u64) -> Option<View<'m, M>> {
        if i >= u64::from(self.count) {
            return None;
        }
        let size = u32::from(self.data_words) + u32::from(self.pointers);
        Some(View {
            message: self.message,
            found: element(
                self.segment,
                self.first + i as u32 * size,
                self.data_words,
                self.pointers,
            ),
        })
    }

    /// What pointer `j` of element `i` leads to, as [`PathStart::get`](crate::PathStart::get) gives
    /// it for these two steps. After `None` the list has no such pointer, or its word alone doesn't
    /// describe an object within the limits: `PathStart::get` then has to decide. Allocates nothing.
    #[inline(always)]
    pub fn pointer(&self, i: u64, j: u16) -> Option<View<'m, M>> {
        if i >= u64::from(self.count) || j >= self.pointers {
            return None;
        }
        let size = u32::from(self.data_words) + u32::from(self.pointers);
        let start = self.first + i as u32 * size;
        let word = start + u32::from(self.data_words) + u32::from(j);
        let (message, segment) = (self.message, self.segment);
        let (found, _) = found_near(message, self.left, self.depth, segment, word, self.level)?;
        Some(View { message, found })
    }
}
