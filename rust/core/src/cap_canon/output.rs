// crates/cap_canon/src/output.rt without its contracts, by tools/erase: that text is proved, this one is only tested.
//! What a canonical copy is written to.

#[cfg(feature = "std")]
use crate::rattle::Vec;

use crate::cap_frame::Segments;

/// Words with capacity for more of them.
pub(crate) trait CopyOutput {
    /// Appends a word.
    fn push(&mut self, word: u64);

    /// Writes a word in place of one of them.
    fn set(&mut self, place: u32, word: u64);

    /// Writes zeros in place of `count` of them in a row, from this one on.
    fn set_zeros(&mut self, place: u32, count: u32);

    /// Appends words of a segment.
    fn append_from<M: Segments>(&mut self, message: &M, segment: u32, start: u32, count: u32) {
        self.append_each(message, segment, start, count);
    }

    /// The same, word by word.
    fn append_each<M: Segments>(&mut self, message: &M, segment: u32, start: u32, count: u32) {
        'words: for k in 0..count {
            self.push(message.word(segment, start + k));
        }
    }
}

#[cfg(feature = "std")]
impl CopyOutput for Vec<u64> {
    fn push(&mut self, word: u64) {
        self.push_reserved(word);
    }

    fn set(&mut self, place: u32, word: u64) {
        self[place as usize] = word;
    }

    fn set_zeros(&mut self, place: u32, count: u32) {
        let start = place as usize;
        self.as_mut_slice()[start..start + count as usize].fill(0);
    }
}
