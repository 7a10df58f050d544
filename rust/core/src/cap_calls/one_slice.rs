// crates/cap_calls/src/one_slice.rt without its contracts, by tools/erase: that text is proved, this one is only tested.
//! Messages whose one segment is a slice.

use crate::cap_frame::{words_at, ByteView, Segments};
use byteorder::{ByteOrder, LittleEndian};

/// A message of one segment, with each word in eight bytes of a slice, the lowest first (encoding:
/// Messages, 64-bit Words).
// A walk through it looks up neither the start nor the size of a segment.
#[derive(Clone, Copy)]
pub(crate) struct OneSlice<'b> {
    bytes: &'b [u8],
}

impl<'b> OneSlice<'b> {
    /// The message that is seen, which has one segment.
    #[inline(always)]
    pub(crate) fn of(view: &ByteView<'b>) -> OneSlice<'b> {
        let bytes = if let Some(bytes) = view.segment(0) {
            bytes
        } else {
            unreachable!();
        };
        OneSlice { bytes }
    }
}

impl<'b> Segments for OneSlice<'b> {
    #[inline]
    fn count(&self) -> u32 {
        1
    }

    #[inline]
    fn len(&self, _s: u32) -> u32 {
        (self.bytes.len() / 8) as u32
    }

    #[inline]
    fn word(&self, _s: u32, w: u32) -> u64 {
        let at = 8 * w as usize;
        // A range with an end: rustc then compares the place once with the length of the bytes.
        LittleEndian::read_u64(&self.bytes[at..at + 8])
    }

    #[inline]
    fn bytes_at(&self, s: u32, start: u32, words: u32) -> Option<&[u8]> {
        if s != 0 {
            return None;
        }
        let end = u64::from(start) + u64::from(words);
        if end > (self.bytes.len() / 8) as u64 {
            return None;
        }
        Some(words_at(self.bytes, start as usize, words as usize))
    }
}
