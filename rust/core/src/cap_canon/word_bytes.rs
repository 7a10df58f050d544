// crates/cap_canon/src/word_bytes.rt without its contracts, by tools/erase: that text is proved, this one is only tested.
//! The words of a canonical copy as bytes, over bytes that are there already.

use crate::cap_canon::copying::copy_into;
use crate::cap_canon::output::CopyOutput;
use crate::cap_frame::Segments;
use crate::cap_words::bytes_of;

/// Writes the layout of a message of this depth, trimmed, over the start of bytes that are long
/// enough for it, and returns how many words it has.
pub(crate) fn fill_front<M: Segments>(message: &M, depth: u32, out: &mut [u8]) -> usize {
    write_words(message, depth, out)
}

// The same, as the words that the bytes begin with.
fn write_words<M: Segments>(message: &M, depth: u32, out: &mut [u8]) -> usize {
    let mut copy = WordBytes::over(out);
    copy_into(message, depth, &mut copy);
    copy.count
}

// Words as their bytes, over bytes that are borrowed for them.
struct WordBytes<'b> {
    bytes: &'b mut [u8],
    // how many words are there
    count: usize,
}

impl<'b> WordBytes<'b> {
    // None is written yet.
    fn over(bytes: &'b mut [u8]) -> WordBytes<'b> {
        WordBytes { bytes, count: 0 }
    }
}

impl CopyOutput for WordBytes<'_> {
    fn push(&mut self, word: u64) {
        write_word(self.bytes, self.count, word);
        self.count += 1;
    }

    fn set(&mut self, place: u32, word: u64) {
        write_word(self.bytes, place as usize, word);
    }

    // Inlined, since a walk calls it for a few words at a time.
    #[inline(always)]
    fn set_zeros(&mut self, place: u32, count: u32) {
        write_zeros(self.bytes, place as usize, count as usize);
    }

    fn append_from<M: Segments>(&mut self, message: &M, segment: u32, start: u32, count: u32) {
        match message.bytes_at(segment, start, count) {
            Some(row) => {
                write_row(self.bytes, self.count, row);
                self.count += count as usize;
            }
            None => self.append_each(message, segment, start, count),
        }
    }
}

/// Writes a word in place of the one with this number.
#[inline(always)]
pub(crate) fn write_word(bytes: &mut [u8], number: usize, word: u64) {
    bytes[8 * number..8 * number + 8].copy_from_slice(&bytes_of(word));
}

/// Writes zeros in place of `count` words in a row, from the one with this number on.
#[inline(always)]
pub(crate) fn write_zeros(bytes: &mut [u8], number: usize, count: usize) {
    bytes[8 * number..8 * (number + count)].fill(0);
}

// Writes the bytes of words in a row in place of those of as many words, from the one with this
// number on.
#[inline(always)]
fn write_row(bytes: &mut [u8], number: usize, row: &[u8]) {
    bytes[8 * number..8 * number + row.len()].copy_from_slice(row);
}
