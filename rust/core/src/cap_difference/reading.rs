// crates/cap_difference/src/reading.rt without its contracts, by tools/erase: that text is proved, this one is only tested.
//! Reading the words of lists that a search needn't look at.

use crate::cap_frame::Segments;
use crate::cap_ptr::{Shape, Target};

/// Reads the values of a list, and the tag of a list of structs. So they are known to be words, each
/// below 2^64. This does nothing to words that the message has as bytes.
#[inline(always)]
pub(crate) fn read_list<M: Segments>(message: &M, target: Target) {
    match target.shape {
        Shape::Scalars { .. } => {
            read_range(message, target.segment, target.start, target.words);
        }
        Shape::Structs { .. } => {
            let _tag = message.word(target.segment, target.start);
        }
        Shape::Struct { .. } => {}
        Shape::Pointers { .. } => {}
    }
}

// The words of a range are words. Those that aren't there as bytes are known to be so only once they
// are read, so each is read.
#[inline(always)]
fn read_range<M: Segments>(message: &M, segment: u32, start: u32, count: u32) {
    match message.bytes_at(segment, start, count) {
        Some(_) => {}
        None => read_each(message, segment, start, count),
    }
}

// The same, word by word.
#[inline(always)]
fn read_each<M: Segments>(message: &M, segment: u32, start: u32, count: u32) {
    'words: for k in 0..count {
        let _word = message.word(segment, start + k);
    }
}
