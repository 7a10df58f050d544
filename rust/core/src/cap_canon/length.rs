// crates/cap_canon/src/length.rt without its contracts, by tools/erase: that text is proved, this one is only tested.
//! How long a canonical copy is.

use crate::cap_canon::objects::Object;
use crate::cap_canon::run::PointerPlace;
use crate::cap_canon::walk::{walk, Pass};
use crate::cap_frame::Segments;
use crate::cap_spec::CanonFault;
use crate::cap_vet::Vetted;

/// How many words the canonical copy of a message has, its root word included (encoding:
/// Canonicalization): at most one more than its charge. Allocates nothing.
///
/// # Errors
///
/// - [`CanonFault::HasCapability`]: a capability is reached, so there is no copy. The error names
///   the first in preorder.
pub fn canonical_len<M: Segments>(v: &Vetted<'_, M>) -> Result<u64, CanonFault> {
    let report = v.report();
    if let Some((segment, word)) = report.first_cap {
        return Err(CanonFault::HasCapability { segment, word });
    }
    Ok(u64::from(length_of(v.message(), report.depth)))
}

// How many words the layout of a message of this depth, trimmed, has.
fn length_of<M: Segments>(message: &M, depth: u32) -> u32 {
    walk(message, depth, &mut Counting)
}

// The walk counts by itself.
struct Counting;

impl Pass for Counting {
    #[inline(always)]
    fn visit<M: Segments>(
        &mut self,
        _message: &M,
        _object: &Object,
        _place: PointerPlace,
        _end: u32,
    ) {
    }

    #[inline(always)]
    fn visit_nulls(&mut self, _slot: u32, _count: u32) {}
}
