// crates/cap_vet/src/exclusiveness/overlap_turn.rt without its contracts, by tools/erase: that text is proved, this one is only tested.
//! The turn of a walk that marks words, and looks for the first pointer that uses one twice.

use crate::cap_frame::Segments;
use crate::cap_ptr::Place;
use crate::cap_vet::exclusiveness::marks::Marks;
use crate::cap_vet::strictness::strict_turn::LaxSearch;
use crate::cap_walk::Turn;

/// The first pointer in preorder that uses a word which is used already.
#[derive(Clone, Copy)]
pub(crate) struct Overlap {
    pub(crate) segment: u32,
    pub(crate) word: u32,
    /// How many pointer words were looked at, that one included.
    pub(crate) pointers: u64,
}

/// A walk that remembers the first pointer which overlaps. It goes on without marks, and stops at a
/// pointer past number `most`. It remembers the first pointer which common readers reject, too.
pub(crate) struct OverlapSearch<'a> {
    pub(crate) marks: Marks<'a>,
    pub(crate) first: Option<Overlap>,
    pub(crate) most: u64,
    pub(crate) strictness: LaxSearch,
}

impl OverlapSearch<'_> {
    // Marks what a pointer uses, unless one overlapped before. Answers whether the walk stops.
    #[inline(always)]
    fn mark<M: Segments>(
        &mut self,
        message: &M,
        s: u32,
        w: u32,
        object: Place,
        pointers: u64,
    ) -> bool {
        if self.first.is_some() {
            return pointers > self.most;
        }
        if self.marks.mark_pointer(message, s, w, object) {
            return false;
        }
        self.first = Some(Overlap {
            segment: s,
            word: w,
            pointers,
        });
        pointers > self.most
    }
}

impl Turn for OverlapSearch<'_> {
    type Stop = Overlap;

    #[inline(always)]
    fn after<M: Segments>(
        &mut self,
        message: &M,
        s: u32,
        w: u32,
        object: Place,
        may_be_lax: bool,
        pointers: u64,
        cost: u64,
    ) -> Result<(), Overlap> {
        if self.mark(message, s, w, object, pointers) {
            if let Some(first) = self.first {
                return Err(first);
            }
        }
        match self
            .strictness
            .after(message, s, w, object, may_be_lax, pointers, cost)
        {
            Ok(()) => Ok(()),
            Err(never) => match never {},
        }
    }
}
