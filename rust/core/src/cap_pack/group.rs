// crates/cap_pack/src/group.rt without its contracts, by tools/erase: that text is proved, this one is only tested.
//! The group that a packer holds open, and how it is written.

use super::encoding::{encode_plain, encode_zeros, BUFFER_BYTES};
use crate::cap_words::{write_all, ByteOut, OutFault};

/// The most words that follow the first one of a group.
pub(crate) const MORE_WORDS: usize = 255;

/// A group that further words may join.
#[derive(Clone, Copy)]
pub(crate) enum Group {
    /// No word is held.
    Empty,
    /// A zero word and `more` further ones.
    Zeros { more: u8 },
    /// A word without a zero byte, and `more` further words with at most one each.
    Plain { first: u64, more: u8 },
}

/// Encodes the group at the start of the buffer. Returns how many bytes that takes.
#[inline(always)]
pub(crate) fn encode_group(
    group: Group,
    words: &[u64; MORE_WORDS],
    buffer: &mut [u8; BUFFER_BYTES],
) -> usize {
    match group {
        Group::Empty => 0,
        Group::Zeros { more } => encode_zeros(buffer, 0, more),
        Group::Plain { first, more } => encode_plain(buffer, 0, first, &words[..more as usize]),
    }
}

/// Writes the group, of which `words` holds the words after the first.
#[inline(always)]
pub(crate) fn write_group<O: ByteOut>(
    output: &mut O,
    group: Group,
    words: &[u64; MORE_WORDS],
    buffer: &mut [u8; BUFFER_BYTES],
) -> Result<(), OutFault> {
    let len = encode_group(group, words, buffer);
    write_all(output, &buffer[..len])
}
