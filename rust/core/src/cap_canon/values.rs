// crates/cap_canon/src/values.rt without its contracts, by tools/erase: that text is proved, this one is only tested.
//! Whether a list of values is as a copy has it.

use crate::cap_canon::words::{last_word, rest_bits};
use crate::cap_frame::Segments;

/// Whether the words of a list of values have no bits set after the last value.
#[inline(always)]
pub(crate) fn ends_with_values<M: Segments>(
    message: &M,
    start: u32,
    code: u8,
    count: u32,
    words: u32,
) -> bool {
    read_range(message, 0, start, words);
    if rest_bits(code, count) == 0 {
        return true;
    }
    let last = message.word(0, start + (words - 1));
    last == last_word(code, count, last)
}

// The words of a range are words, each below 2^64. This does nothing to words that the message has as
// bytes. Others are known to be below 2^64 only once they are read, so each is read.
#[inline(always)]
fn read_range<M: Segments>(message: &M, segment: u32, start: u32, count: u32) {
    match message.bytes_at(segment, start, count) {
        Some(_) => {}
        None => read_each(message, segment, start, count),
    }
}

// The same, word by word.
#[inline(always)]
fn read_each<M: Segments>(message: &M, segment: u32, start: u32, count: u32) {
    'words: for k in 0..count {
        let _word = message.word(segment, start + k);
    }
}
