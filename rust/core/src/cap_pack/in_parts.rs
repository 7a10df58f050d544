// crates/cap_pack/src/in_parts.rt without its contracts, by tools/erase: that text is proved, this one is only tested.
//! Packing words that are all in memory, one part of the text after the other.

use super::buffers::{front_group, write_group};
use super::encoding::BUFFER_BYTES;
use super::pieces::{encode_groups, read_words, PIECE_WORDS};

/// How many bytes the buffer for a part of a packed text has.
pub const PART_BYTES: usize = BUFFER_BYTES;

/// How much of some bytes was packed.
#[derive(Clone, Copy, Debug, PartialEq, Eq)]
pub struct PackedPart {
    /// How many bytes the packed words have.
    pub taken: usize,
    /// How many bytes their packed text has.
    pub length: usize,
}

/// Writes the start of the packed text of some words to the start of `text` (encoding: Packing).
/// The words are those that `bytes` begin with, eight bytes each, the lowest first. The text of the
/// words that it doesn't take is the rest of the packed text, so calls one after the other give the
/// text of all. It takes at least one word if there is one. The bytes of `text` after its part may be
/// overwritten.
///
/// There are no errors. Allocates nothing.
pub fn pack_part(bytes: &[u8], text: &mut [u8; PART_BYTES]) -> PackedPart {
    if bytes.len() < 8 {
        return PackedPart {
            taken: 0,
            length: 0,
        };
    }
    let mut words = [0; PIECE_WORDS];
    let count = read_words(bytes, &mut words);
    let piece = encode_groups(&words[..count], text, 0);
    if piece.words > 0 {
        return PackedPart {
            taken: 8 * piece.words,
            length: piece.bytes,
        };
    }
    // The words of the piece are one run, and words after the piece may go on with it.
    let (taken, length) = front_group(bytes);
    write_group(&bytes[..taken], &mut text[..length]);
    PackedPart { taken, length }
}
