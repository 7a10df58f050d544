// crates/cap_walk/src/null_words.rt without its contracts, by tools/erase: that text is proved, this one is only tested.
//! Null words in a row.

use crate::cap_frame::Segments;
use byteorder::{ByteOrder, LittleEndian};

/// How many of the `most` words from `at` on come before the first that isn't null. The caller makes
/// sure that these words exist. Allocates nothing.
#[inline(always)]
pub fn nulls<M: Segments>(message: &M, segment: u32, at: u32, most: u32) -> u32 {
    match message.bytes_at(segment, at, most) {
        Some(row) => nulls_in(row),
        None => nulls_by_word(message, segment, at, most),
    }
}

// The same of words by their bytes. The rest of them is a slice, so rustc checks nothing more than the
// loop does.
#[inline(always)]
fn nulls_in(row: &[u8]) -> u32 {
    let mut rest = row;
    'words: while rest.len() >= 8 && LittleEndian::read_u64(rest) == 0 {
        rest = &rest[8..];
    }
    ((row.len() - rest.len()) / 8) as u32
}

// The same of a message that doesn't have its words as bytes.
#[inline(always)]
fn nulls_by_word<M: Segments>(message: &M, segment: u32, at: u32, most: u32) -> u32 {
    let mut passed = 0;
    'nulls: while passed < most && message.word(segment, at + passed) == 0 {
        passed += 1;
    }
    passed
}
