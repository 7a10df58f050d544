// crates/cap_vet/src/strictness/strict_turn.rt without its contracts, by tools/erase: that text is proved, this one is only tested.
//! The turn of a walk that looks for pointers which common readers reject.

use crate::cap_frame::Segments;
use crate::cap_ptr::Place;
use crate::cap_spec::Lax;
use crate::cap_vet::strictness::lax::lax_form;
use crate::cap_walk::Turn;
use core::convert::Infallible;

/// The first pointer that common readers reject.
#[derive(Clone, Copy)]
pub(crate) struct LaxPointer {
    /// Its form.
    pub(crate) what: Lax,
    pub(crate) segment: u32,
    pub(crate) word: u32,
    /// How many pointer words were looked at, that one included.
    pub(crate) pointers: u64,
}

/// A walk that remembers the first pointer which common readers reject, and goes on.
pub(crate) struct LaxSearch {
    pub(crate) first: Option<LaxPointer>,
}

impl LaxSearch {
    // Looks at a pointer that may be the first. Few pointers are far, so this and `lax_form` stay out
    // of the loop of the walk.
    #[cold]
    #[inline(never)]
    fn look_at<M: Segments>(&mut self, message: &M, s: u32, w: u32, pointers: u64) {
        if self.first.is_some() {
            return;
        }
        if let Some(what) = lax_form(message, s, w) {
            self.first = Some(LaxPointer {
                what,
                segment: s,
                word: w,
                pointers,
            });
        }
    }
}

impl Turn for LaxSearch {
    type Stop = Infallible;

    #[inline(always)]
    fn after<M: Segments>(
        &mut self,
        message: &M,
        s: u32,
        w: u32,
        _object: Place,
        may_be_lax: bool,
        pointers: u64,
        _cost: u64,
    ) -> Result<(), Infallible> {
        if may_be_lax {
            self.look_at(message, s, w, pointers);
        }
        Ok(())
    }
}
