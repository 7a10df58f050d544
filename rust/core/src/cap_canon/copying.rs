// crates/cap_canon/src/copying.rt without its contracts, by tools/erase: that text is proved, this one is only tested.
//! The canonical copy of a message.

#[cfg(feature = "std")]
use crate::rattle::Vec;

use crate::cap_canon::appending::append_own;
use crate::cap_canon::length::canonical_len;
use crate::cap_canon::objects::Object;
use crate::cap_canon::output::CopyOutput;
use crate::cap_canon::run::PointerPlace;
use crate::cap_canon::walk::{walk, Pass};
use crate::cap_canon::words::pointer_word;
use crate::cap_frame::Segments;
use crate::cap_spec::CanonFault;
use crate::cap_vet::Vetted;
use crate::rattle::alloc::Global;

/// The canonical copy of a message: the words of its one segment (encoding: Canonicalization).
/// Allocates once: its length is computed first, and just that many words are reserved.
///
/// # Errors
///
/// - [`CanonFault::HasCapability`]: a capability is reached, so there is no copy. The error names
///   the first in preorder.
/// - [`CanonFault::Memory`]: there is a copy, and the allocation failed.
#[cfg(feature = "std")]
pub fn canonical<M: Segments>(alloc: Global, v: &Vetted<'_, M>) -> Result<Vec<u64>, CanonFault> {
    let length = match canonical_len(v) {
        Ok(length) => length,
        Err(fault) => return Err(fault),
    };
    let mut words = if let Ok(words) = Vec::with_capacity(alloc, length as usize) {
        words
    } else {
        return Err(CanonFault::Memory);
    };
    copy_into(v.message(), v.report().depth, &mut words);
    Ok(words)
}

/// Appends the layout of a message of this depth, trimmed, to an output that is empty.
pub(crate) fn copy_into<M: Segments, T: CopyOutput>(message: &M, depth: u32, copy: &mut T) {
    copy.push(0);
    let mut copying = Copying { output: copy };
    let _words = walk(message, depth, &mut copying);
}

// A copy so far.
struct Copying<'c, T> {
    output: &'c mut T,
}

impl<T: CopyOutput> Pass for Copying<'_, T> {
    #[inline(always)]
    fn visit<M: Segments>(&mut self, message: &M, object: &Object, place: PointerPlace, end: u32) {
        lay(message, object, place.slot, end, self.output);
    }

    #[inline(always)]
    fn visit_nulls(&mut self, slot: u32, count: u32) {
        self.output.set_zeros(slot, count);
    }
}

// Writes the pointer word of what is left of an object at `slot`, and its own words from `end` on,
// where the copy ends so far.
// It is inlined, and so is what it calls at nearly every word: the object then stays in registers.
#[inline(always)]
fn lay<M: Segments, T: CopyOutput>(
    message: &M,
    object: &Object,
    slot: u32,
    end: u32,
    copy: &mut T,
) {
    copy.set(slot, pointer_word(end - slot - 1, object));
    append_own(message, object, copy);
}
