// crates/cap_explain/src/words.rt without its contracts, by tools/erase: that text is proved, this one is only tested.
//! The words of a message by their places, and their bytes.

use crate::cap_frame::{message_words, words_before, Segments};

/// Word `w` of segment `s`, if there is one.
pub(crate) fn word_of<M: Segments>(message: &M, s: u32, w: u64) -> Option<u64> {
    if s >= message.count() || w >= u64::from(message.len(s)) {
        return None;
    }
    Some(message.word(s, w as u32))
}

/// The words of the segment table of a message, or none if the message has no table.
fn message_table_words<M: Segments>(message: &M, has_table: bool) -> u64 {
    if has_table {
        u64::from(message.count() / 2 + 1)
    } else {
        0
    }
}

/// The first byte of word `w` of segment `s` in the message, its segment table included if it has
/// one.
pub(crate) fn first_byte_of<M: Segments>(message: &M, has_table: bool, s: u32, w: u32) -> u64 {
    8 * (message_table_words(message, has_table) + words_before(message, s) + u64::from(w))
}

/// How many words the frame of a message has: its segment table, and the words of its segments
/// (encoding: Serialization Over a Stream).
pub fn frame_words<M: Segments>(message: &M) -> u64 {
    u64::from(message.count() / 2 + 1) + message_words(message)
}
