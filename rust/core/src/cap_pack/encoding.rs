// crates/cap_pack/src/encoding.rt without its contracts, by tools/erase: that text is proved, this one is only tested.
//! The bytes of a group, as they are written.

use crate::cap_words::bytes_of;
use byteorder::{ByteOrder, LittleEndian};

/// The bytes of a buffer for the groups of a piece of words: the longest group, of a tag, a word, a
/// count and 255 further words, and ten bytes for each of 64 words.
pub(crate) const BUFFER_BYTES: usize = 2690;

/// Encodes a run of a zero word and `more` further ones, after the first `len` bytes. Returns how
/// many bytes there are then.
#[inline(always)]
pub(crate) fn encode_zeros(text: &mut [u8; BUFFER_BYTES], len: usize, more: u8) -> usize {
    text[len] = 0;
    text[len + 1] = more;
    len + 2
}

/// Encodes a literal word, and at most 255 more, after the first `len` bytes. Returns how many
/// bytes there are then.
pub(crate) fn encode_plain(
    text: &mut [u8; BUFFER_BYTES],
    len: usize,
    first: u64,
    more: &[u64],
) -> usize {
    text[len] = 255;
    text[len + 1..len + 9].copy_from_slice(&bytes_of(first));
    text[len + 9] = more.len() as u8;
    let end = len + 10 + 8 * more.len();
    LittleEndian::write_u64_into(more, &mut text[len + 10..end]);
    end
}
