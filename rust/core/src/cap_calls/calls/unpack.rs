// crates/cap_calls/src/calls/unpack.rt without its contracts, by tools/erase: that text is proved, this one is only tested.
//! The call that unpacks between buffers.

use crate::cap_calls::answer::Answer;
use crate::cap_pack::Unpacker;
use crate::cap_words::{SliceIn, WordSource};

/// The longest packed text that is unpacked, in bytes.
const MOST_PACKED: u64 = 9007199254740992;

/// Unpacks all the bytes to the start of `out`, eight bytes a word, the lowest first (encoding:
/// Packing, 64-bit Words). It looks at no framing. Allocates nothing.
///
/// The first of these that applies is returned:
/// - [`Answer::TooLarge`], if there are more than 2^53 bytes; `required` is 0;
/// - [`Answer::Truncated`], if they end inside a group; `required` is 0;
/// - [`Answer::BufferTooSmall`], if `out` is too small; `required` is then how many bytes the words
///   take;
/// - [`Answer::Good`], and `required` is how many bytes were written.
///
/// Without [`Answer::Good`], `out` is unchanged; with it, the bytes after the words are.
pub fn unpack(bytes: &[u8], out: &mut [u8], required: &mut usize) -> Answer {
    unpack_all(bytes, out, required)
}

// The same, without the clause `only`.
fn unpack_all(bytes: &[u8], out: &mut [u8], required: &mut usize) -> Answer {
    *required = 0;
    if bytes.len() as u64 > MOST_PACKED {
        return Answer::TooLarge;
    }
    let words = if let Some(words) = unpacked_words(bytes) {
        words
    } else {
        return Answer::Truncated;
    };
    let count = if let Ok(count) = usize::try_from(8 * words) {
        count
    } else {
        return Answer::TooLarge;
    };
    *required = count;
    if out.len() < count {
        return Answer::BufferTooSmall;
    }
    write_unpacked(bytes, &mut out[..count]);
    Answer::Good
}

// How many words packed bytes encode, or `None` if they end inside a group. Only the heads of
// groups are read.
fn unpacked_words(bytes: &[u8]) -> Option<u64> {
    let mut at = 0;
    let mut words = 0u64;
    'groups: while at < bytes.len() {
        let (len, count) = front_group(&bytes[at..])?;
        at += len;
        words += count;
    }
    Some(words)
}

// How many bytes the first group has, and how many words it encodes, or `None` if the bytes end
// inside it.
fn front_group(bytes: &[u8]) -> Option<(usize, u64)> {
    match bytes[0] {
        0 => {
            if bytes.len() < 2 {
                return None;
            }
            Some((2, 1 + u64::from(bytes[1])))
        }
        0xff => {
            if bytes.len() < 10 {
                return None;
            }
            let len = 10 + 8 * usize::from(bytes[9]);
            if bytes.len() < len {
                return None;
            }
            Some((len, 1 + u64::from(bytes[9])))
        }
        tag => {
            let len = 1 + tag.count_ones() as usize;
            if bytes.len() < len {
                return None;
            }
            Some((len, 1))
        }
    }
}

// Writes the words that the bytes encode, which fill the buffer.
fn write_unpacked(bytes: &[u8], out: &mut [u8]) {
    let mut source = Unpacker::new(SliceIn::new(bytes));
    match source.fill(out) {
        Ok(true) => {}
        _ => unreachable!(),
    }
}
