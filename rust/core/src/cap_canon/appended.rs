// crates/cap_canon/src/appended.rt without its contracts, by tools/erase: that text is proved, this one is only tested.
//! The words of a canonical copy as bytes, appended to a vector that has capacity for them.

#[cfg(feature = "std")]
use crate::rattle::Vec;

use crate::cap_canon::copying::copy_into;
use crate::cap_canon::output::CopyOutput;
use crate::cap_canon::word_bytes::{write_word, write_zeros};
use crate::cap_frame::Segments;
use crate::cap_words::bytes_of;
use crate::rattle::alloc::{AllocError, Global};

/// The layout of a message of this depth, trimmed, in a new vector with capacity for `most` words.
/// The layout has no more of them.
// It isn't inlined, so that the stack of its walk costs no other copy anything.
#[cfg(feature = "std")]
#[inline(never)]
pub(crate) fn copy_within<M: Segments>(
    alloc: Global,
    message: &M,
    depth: u32,
    most: usize,
) -> Result<Vec<u8>, AllocError> {
    let bytes = Vec::with_capacity(alloc, 8 * most)?;
    let mut copy = AppendedWords { bytes, most };
    copy_into(message, depth, &mut copy);
    read_bytes(copy.bytes.as_slice());
    Ok(copy.bytes)
}

// The bytes of a slice are bytes. Nothing is done with them.
#[inline(always)]
fn read_bytes(bytes: &[u8]) {}

// Words as their bytes, with capacity for `most` of them.
#[cfg(feature = "std")]
struct AppendedWords {
    bytes: Vec<u8>,
    most: usize,
}

#[cfg(feature = "std")]
impl CopyOutput for AppendedWords {
    fn push(&mut self, word: u64) {
        // within the capacity, so that nothing grows
        self.bytes.extend_from_slice(&bytes_of(word)).unwrap();
    }

    fn set(&mut self, place: u32, word: u64) {
        write_word(self.bytes.as_mut_slice(), place as usize, word);
    }

    // Inlined, since a walk calls it for a few words at a time.
    #[inline(always)]
    fn set_zeros(&mut self, place: u32, count: u32) {
        write_zeros(self.bytes.as_mut_slice(), place as usize, count as usize);
    }

    // Inlined, since a copy calls it at nearly every object.
    #[inline(always)]
    fn append_from<M: Segments>(&mut self, message: &M, segment: u32, start: u32, count: u32) {
        match message.bytes_at(segment, start, count) {
            // within the capacity, so that nothing grows
            Some(row) => self.bytes.extend_from_slice(row).unwrap(),
            None => self.append_each(message, segment, start, count),
        }
    }
}
