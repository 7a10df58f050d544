// crates/cap_canon/src/over.rt without its contracts, by tools/erase: that text is proved, this one is only tested.
//! The canonical copy of a message, over the buffer of an earlier one.

#[cfg(feature = "std")]
use crate::rattle::Vec;

#[cfg(feature = "std")]
use crate::cap_canon::appended::copy_within;
use crate::cap_canon::length::canonical_len;
use crate::cap_canon::word_bytes::fill_front;
use crate::cap_frame::Segments;
use crate::cap_spec::CanonFault;
use crate::cap_vet::{Report, Vetted};
use crate::rattle::alloc::{AllocError, Global};

/// Writes the canonical copy of a message over the start of a buffer as bytes, eight a word, the
/// lowest byte first, and returns how many these are (encoding: Canonicalization, 64-bit Words).
/// The bytes of the buffer after the copy may be any.
///
/// Allocates only if the copy has more bytes than the buffer. It then frees the buffer, and allocates
/// one of the length of the copy. An empty buffer may instead get eight bytes for each word of the
/// charge and eight more: if the first segment has as many words, so that it costs no pass over the
/// message.
///
/// # Errors
///
/// - [`CanonFault::HasCapability`]: a capability is reached, so there is no copy. The error names
///   the first in preorder. The buffer is as it was.
/// - [`CanonFault::Memory`]: there is a copy, and the allocation failed. The buffer is empty.
#[cfg(feature = "std")]
pub fn canonical_over<M: Segments>(
    alloc: Global,
    v: &Vetted<'_, M>,
    buffer: &mut Vec<u8>,
) -> Result<usize, CanonFault> {
    if buffer.is_empty() && fits_segment(v) {
        return fill_empty(alloc, v, buffer);
    }
    fill_over(alloc, v, buffer)
}

// Whether a message has a copy, which needs no more words than its first segment has.
#[cfg(feature = "std")]
fn fits_segment<M: Segments>(v: &Vetted<'_, M>) -> bool {
    let report = v.report();
    report.first_cap.is_none() && report.charge < u64::from(v.message().len(0))
}

// The same over an empty buffer, which gets capacity for every copy of a message with this charge.
#[cfg(feature = "std")]
fn fill_empty<M: Segments>(
    alloc: Global,
    v: &Vetted<'_, M>,
    buffer: &mut Vec<u8>,
) -> Result<usize, CanonFault> {
    let report = v.report();
    let most = report.charge as usize + 1;
    let bytes = if let Ok(bytes) = copy_within(alloc, v.message(), report.depth, most) {
        bytes
    } else {
        return Err(CanonFault::Memory);
    };
    *buffer = bytes;
    Ok(buffer.len())
}

/// The same over any buffer. A buffer that is too short is replaced by one of the length of the copy.
#[cfg(feature = "std")]
pub(crate) fn fill_over<M: Segments>(
    alloc: Global,
    v: &Vetted<'_, M>,
    buffer: &mut Vec<u8>,
) -> Result<usize, CanonFault> {
    if let Err(fault) = make_enough(alloc, v, buffer) {
        return Err(fault);
    }
    let words = fill_front(v.message(), v.report().depth, buffer.as_mut_slice());
    Ok(8 * words)
}

// Makes sure that a buffer has as many bytes as the copy.
#[cfg(feature = "std")]
fn make_enough<M: Segments>(
    alloc: Global,
    v: &Vetted<'_, M>,
    buffer: &mut Vec<u8>,
) -> Result<(), CanonFault> {
    if fits_any(&v.report(), buffer.len()) {
        return Ok(());
    }
    let words = match canonical_len(v) {
        Ok(words) => words,
        Err(fault) => return Err(fault),
    };
    let count = 8 * words as usize;
    if buffer.len() >= count {
        return Ok(());
    }
    match replace_zeros(alloc, buffer, count) {
        Ok(()) => Ok(()),
        Err(_) => Err(CanonFault::Memory),
    }
}

/// Whether a message with this report has a copy, and every such copy fits into `len` bytes.
pub(crate) fn fits_any(report: &Report, len: usize) -> bool {
    report.first_cap.is_none() && len >= 8 * (report.charge as usize + 1)
}

// Frees a buffer, and makes one of `count` zeros in its place.
#[cfg(feature = "std")]
fn replace_zeros(alloc: Global, buffer: &mut Vec<u8>, count: usize) -> Result<(), AllocError> {
    *buffer = Vec::new(alloc);
    *buffer = zeros(alloc, count)?;
    Ok(())
}

// A vector of `count` zeros. Each is pushed by itself, because std says of `resize` only that the
// capacity doesn't shrink. The compiler makes one fill of the loop.
#[cfg(feature = "std")]
fn zeros(alloc: Global, count: usize) -> Result<Vec<u8>, AllocError> {
    let mut bytes = Vec::with_capacity(alloc, count)?;
    'zeros: for _ in 0..count {
        bytes.push_reserved(0);
    }
    Ok(bytes)
}
