// crates/cap_pack/src/lanes.rt without its contracts, by tools/erase: that text is proved, this one is only tested.
//! Packing by lanes: the tags, the runs and the bytes of groups (encoding: Packing).

pub mod scalars;

// The kernels. `scalars` has functions of the same names and contracts, for compilers without
// portable vectors.
pub use scalars::scatter;
pub(crate) use scalars::{count_present, squeezed, tag_of_word};
use scalars::{fulls_of_eights, tags_of_eights, zeros_of_eights};

/// How many of a word's bytes are zero.
#[inline(always)]
pub(crate) fn count_zeros(word: u64) -> u32 {
    8 - count_present(word)
}

/// The tag of each word, as in a packed group: bit `i` of `out[k]` is set exactly if byte `i` of
/// word `k` isn't zero. The caller makes sure that `out` has as many bytes as there are words.
#[inline]
pub fn tags(words: &[u64], out: &mut [u8]) {
    let mut i = tags_of_eights(words, out);
    while i < words.len() {
        out[i] = tag_of_word(words[i]);
        i += 1;
    }
}

/// The length of the longest front of zero words, in words.
#[inline]
pub fn zero_run(words: &[u64]) -> usize {
    let mut i = zeros_of_eights(words);
    while i < words.len() && words[i] == 0 {
        i += 1;
    }
    i
}

/// The length of the longest front of words with at most one zero byte, in words.
#[inline]
pub fn full_run(words: &[u64]) -> usize {
    let mut i = fulls_of_eights(words);
    while i < words.len() && count_zeros(words[i]) <= 1 {
        i += 1;
    }
    i
}

/// The bytes of a word that aren't zero, in order, at the start of `out`, and zeros after them.
/// Returns how many they are.
#[inline]
pub fn gather(word: u64, out: &mut [u8; 8]) -> usize {
    let tag = tag_of_word(word);
    *out = squeezed(tag, word);
    tag.count_ones() as usize
}
