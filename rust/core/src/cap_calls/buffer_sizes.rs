// crates/cap_calls/src/buffer_sizes.rt without its contracts, by tools/erase: that text is proved, this one is only tested.
//! Sizes that suffice for the buffers of the calls, for callers without the macros of C.

use crate::cap_frame::MOST_WORDS;

/// The most bytes of a frame whose segments have `message_words` words. Above the maximum of the
/// limit, it is that of the maximum.
pub fn frame_size(message_words: u64) -> usize {
    message_words.min(MOST_WORDS) as usize * 8 + 2056
}

/// The numbers that suffice for the marks of an input of `length` bytes.
pub fn marks_size(length: usize) -> usize {
    length / 512 + 1
}

/// The most bytes of the canonical copy of an input of `length` bytes that is unamplified; the
/// greatest `usize`, if it is less.
pub fn canonical_size(length: usize) -> usize {
    length.saturating_add(8 * (4096 + 1))
}

/// The most bytes that packing `length` bytes gives; the greatest `usize`, if it is less.
pub fn pack_size(length: usize) -> usize {
    (length / 8).saturating_mul(10)
}
