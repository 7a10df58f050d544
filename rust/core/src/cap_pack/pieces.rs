// crates/cap_pack/src/pieces.rt without its contracts, by tools/erase: that text is proved, this one is only tested.
//! The groups of a piece of words, encoded one after the other.

use super::encoding::{encode_plain, encode_zeros, BUFFER_BYTES};
use super::lanes::{count_present, full_run, squeezed, tag_of_word, zero_run};
use byteorder::{ByteOrder, LittleEndian};

/// The most words of a piece.
pub(crate) const PIECE_WORDS: usize = 64;

/// Reads the words of these bytes, but no more than a piece has. Returns how many.
pub(crate) fn read_words(bytes: &[u8], words: &mut [u64; PIECE_WORDS]) -> usize {
    let count = (bytes.len() / 8).min(PIECE_WORDS);
    LittleEndian::read_u64_into(&bytes[..8 * count], &mut words[..count]);
    count
}

/// How much of a piece was encoded.
#[derive(Clone, Copy)]
pub(crate) struct Encoded {
    /// the words of the groups that ended
    pub(crate) words: usize,
    /// the bytes in the buffer
    pub(crate) bytes: usize,
}

// Encodes a word by its tag and its bytes that aren't zero, after the first `len` bytes. Returns
// how many bytes there are then.
#[inline(always)]
fn encode_marked(text: &mut [u8; BUFFER_BYTES], len: usize, tag: u8, word: u64) -> usize {
    text[len] = tag;
    text[len + 1..len + 9].copy_from_slice(&squeezed(tag, word));
    len + 1 + count_present(word) as usize
}

/// Encodes the groups of a piece of words after the first `start` bytes, but for a run at the end,
/// which words after the piece may go on with.
pub(crate) fn encode_groups(words: &[u64], text: &mut [u8; BUFFER_BYTES], start: usize) -> Encoded {
    let mut at = 0;
    let mut len = start;
    while at < words.len() {
        let word = words[at];
        let tag = tag_of_word(word);
        if tag == 0 {
            let more = zero_run(&words[at + 1..]);
            if at + 1 + more == words.len() {
                return Encoded {
                    words: at,
                    bytes: len,
                };
            }
            len = encode_zeros(text, len, more as u8);
            at += 1 + more;
        } else if tag == 255 {
            let more = full_run(&words[at + 1..]);
            if at + 1 + more == words.len() {
                return Encoded {
                    words: at,
                    bytes: len,
                };
            }
            len = encode_plain(text, len, word, &words[at + 1..at + 1 + more]);
            at += 1 + more;
        } else {
            len = encode_marked(text, len, tag, word);
            at += 1;
        }
    }
    Encoded {
        words: at,
        bytes: len,
    }
}
