// crates/cap_canon/src/buffer.rt without its contracts, by tools/erase: that text is proved, this one is only tested.
//! The canonical copy of a message, in the caller's buffer.

use crate::cap_canon::fault::BufferFault;
use crate::cap_canon::length::canonical_len;
use crate::cap_canon::over::fits_any;
use crate::cap_canon::word_bytes::fill_front;
use crate::cap_frame::Segments;
use crate::cap_spec::CanonFault;
use crate::cap_vet::Vetted;

/// Writes the canonical copy of a message at the start of `out` as bytes, eight a word, the lowest
/// byte first, and returns how many these are (encoding: Canonicalization, 64-bit Words). The bytes
/// of `out` after the copy stay as they were. Allocates nothing. The length of the copy isn't
/// computed first if `out` has eight bytes for each word of the charge and eight more, because every
/// copy fits these.
///
/// # Errors
///
/// After an error `out` is as it was.
///
/// - [`BufferFault::HasCapability`]: a capability is reached, so there is no copy. The error names
///   the first in preorder.
/// - [`BufferFault::BufferTooSmall`]: there is a copy, and `out` is shorter. The error says how many bytes
///   the copy has.
pub fn canonical_into<M: Segments>(
    v: &Vetted<'_, M>,
    out: &mut [u8],
) -> Result<usize, BufferFault> {
    canonical_from(v, v.message(), out)
}

/// Writes the same copy, from another form of the same message: `same` has the same segments, each with
/// the same words. The copy reads its words from `same`, and only its length from `v`'s own form.
/// Allocates nothing.
///
/// # Errors
///
/// Those of [`canonical_into`].
pub fn canonical_from<M: Segments, S: Segments>(
    v: &Vetted<'_, M>,
    same: &S,
    out: &mut [u8],
) -> Result<usize, BufferFault> {
    if let Err(fault) = check_buffer(v, out.len()) {
        return Err(fault);
    }
    let words = fill_front(same, v.report().depth, out);
    Ok(8 * words)
}

// Makes sure that a message has a copy, which fits into `len` bytes.
fn check_buffer<M: Segments>(v: &Vetted<'_, M>, len: usize) -> Result<(), BufferFault> {
    if fits_any(&v.report(), len) {
        return Ok(());
    }
    let words = match canonical_len(v) {
        Ok(words) => words,
        Err(CanonFault::HasCapability { segment, word }) => {
            return Err(BufferFault::HasCapability { segment, word });
        }
        Err(CanonFault::Memory) => unreachable!(),
    };
    let needed = 8 * words as usize;
    if len < needed {
        return Err(BufferFault::BufferTooSmall { needed });
    }
    Ok(())
}
