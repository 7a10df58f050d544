// crates/cap_canon/src/bytes.rt without its contracts, by tools/erase: that text is proved, this one is only tested.
//! The canonical copy of a message as bytes.

#[cfg(feature = "std")]
use crate::rattle::Vec;

use crate::cap_canon::over::fill_over;
use crate::cap_frame::Segments;
use crate::cap_spec::CanonFault;
use crate::cap_vet::Vetted;
use crate::rattle::alloc::Global;

/// The canonical copy of a message as bytes, eight a word, the lowest byte first (encoding:
/// Canonicalization, 64-bit Words). They encode the words of `canonical`. Allocates once: the
/// length is computed first, and just that many bytes are reserved.
///
/// # Errors
///
/// - [`CanonFault::HasCapability`]: a capability is reached, so there is no copy. The error names
///   the first in preorder.
/// - [`CanonFault::Memory`]: there is a copy, and the allocation failed.
pub fn canonical_bytes<M: Segments>(
    alloc: Global,
    v: &Vetted<'_, M>,
) -> Result<Vec<u8>, CanonFault> {
    let mut bytes = Vec::new(alloc);
    match fill_over(alloc, v, &mut bytes) {
        Ok(_) => Ok(bytes),
        Err(fault) => Err(fault),
    }
}
