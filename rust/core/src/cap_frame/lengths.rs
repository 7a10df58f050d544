// crates/cap_frame/src/lengths.rt without its contracts, by tools/erase: that text is proved, this one is only tested.
//! How many words a message has.

use crate::cap_frame::segments::Segments;

/// The words of all segments of a message together.
pub fn message_words<M: Segments>(message: &M) -> u64 {
    words_before(message, message.count())
}

/// The words of the first `segments` segments of a message together.
pub fn words_before<M: Segments>(message: &M, segments: u32) -> u64 {
    let mut words = 0u64;
    for s in 0..segments {
        words += u64::from(message.len(s));
    }
    words
}
