// crates/cap_pack/src/lanes/scalars.rt without its contracts, by tools/erase: that text is proved, this one is only tested.
//! Packing without vectors: the tags, the runs and the bytes of groups, a word at a time
//! (encoding: Packing).

mod down;
mod up;

use crate::cap_words::{bytes_of, word_of};
use down::masks_down;
use up::masks_up;

// All bits of each byte of a word but the highest, and the highest.
const LOW_BITS: u64 = 0x7f7f_7f7f_7f7f_7f7f;

const HIGH_BITS: u64 = 0x8080_8080_8080_8080;

// The highest bit of each byte that isn't zero.
#[inline(always)]
fn present_bits(word: u64) -> u64 {
    // A sum sets the highest bit of each byte whose other bits aren't all clear, and carries nothing.
    (((word & LOW_BITS) + LOW_BITS) | word) & HIGH_BITS
}

/// The tag of one word.
#[inline(always)]
pub fn tag_of_word(word: u64) -> u8 {
    // The product brings the eight bits together, in its highest byte.
    ((present_bits(word) >> 7).wrapping_mul(0x0102_0408_1020_4080) >> 56) as u8
}

/// How many of a word's bytes aren't zero.
#[inline(always)]
pub fn count_present(word: u64) -> u32 {
    // The product adds up the eight bits, since x86-64 counts bits only by an extension.
    ((present_bits(word) >> 7).wrapping_mul(0x0101_0101_0101_0101) >> 56) as u32
}

/// The tags of none of the words. Without vectors, one word at a time takes as long.
#[inline(always)]
pub fn tags_of_eights(words: &[u64], out: &mut [u8]) -> usize {
    0
}

// The bits that any of these words has.
#[inline(always)]
fn all_bits(words: &[u64]) -> u64 {
    let mut bits = 0;
    for word in words {
        bits |= *word;
    }
    bits
}

/// How many words at the start are zero, counted by whole eights.
#[inline]
pub fn zeros_of_eights(words: &[u64]) -> usize {
    let mut i = 0;
    while words.len() - i >= 8 && all_bits(&words[i..i + 8]) == 0 {
        i += 8;
    }
    i
}

// A number that is zero only if the word has at most one zero byte.
#[inline(always)]
fn second_gap(word: u64) -> u64 {
    // A number and the one before it have no bit in common where it has one bit or none.
    let absent = HIGH_BITS - present_bits(word);
    absent & absent.wrapping_sub(1)
}

// A number that is zero only if each of these words has at most one zero byte.
#[inline(always)]
fn second_gaps(words: &[u64]) -> u64 {
    let mut gaps = 0;
    for word in words {
        gaps |= second_gap(*word);
    }
    gaps
}

/// How many words at the start have at most one zero byte, counted by whole eights.
#[inline]
pub fn fulls_of_eights(words: &[u64]) -> usize {
    let mut i = 0;
    while words.len() - i >= 8 && second_gaps(&words[i..i + 8]) == 0 {
        i += 8;
    }
    i
}

// The bytes of a word that a mask marks, and zeros in place of the others.
#[inline(always)]
fn kept_bytes(word: u64, mask: u64) -> u64 {
    word & mask
}

// The bytes of a word, of which those that a mask marks are moved some places down.
#[inline(always)]
fn moved_down(word: u64, mask: u64, places: u32) -> u64 {
    let moving = word & mask;
    word - moving + (moving >> (8 * places))
}

// The bytes of a word, of which those that a mask marks are moved some places up.
#[inline(always)]
fn moved_up(word: u64, mask: u64, places: u32) -> u64 {
    let moving = word & mask;
    (word - moving).wrapping_add(moving << (8 * places))
}

/// The bytes of a word that its tag marks, in order, and zeros after them.
#[inline(always)]
pub fn squeezed(tag: u8, word: u64) -> [u8; 8] {
    let masks = masks_down(tag);
    let once = moved_down(word, masks[0], 1);
    let twice = moved_down(once, masks[1], 2);
    bytes_of(moved_down(twice, masks[2], 4))
}

/// The word whose byte `i` is the next of these bytes where bit `i` of the tag is set, and else zero.
/// Bytes past those that the tag marks change nothing.
#[inline]
pub fn scatter(tag: u8, bytes: &[u8; 8]) -> u64 {
    let masks = masks_up(tag);
    let front = kept_bytes(word_of(bytes), masks[0]);
    let four = moved_up(front, masks[1], 4);
    let two = moved_up(four, masks[2], 2);
    moved_up(two, masks[3], 1)
}
