// crates/cap_pack/src/buffers.rt without its contracts, by tools/erase: that text is proved, this one is only tested.
//! Packing the words of one buffer into another: the length of the text first, and then its bytes. No
//! memory is taken.

use super::lanes::{count_present, count_zeros, squeezed, tag_of_word};
use crate::cap_words::bytes_of;
use byteorder::{ByteOrder, LittleEndian};

/// Writes the packed text of the words that these bytes begin with, at the start of `out`
/// (encoding: Packing). A word has eight bytes, the lowest first. Returns how many bytes that text
/// has, at most ten for each word. If `out` is shorter than that, it is as it was. The bytes of
/// `out` after the text are as they were in any case. Bytes after the last whole word change
/// nothing. Allocates nothing.
pub fn pack_into(bytes: &[u8], out: &mut [u8]) -> usize {
    let len = packed_len(bytes);
    if out.len() < len {
        return len;
    }
    write_text(bytes, &mut out[..len]);
    len
}

// How many bytes the packed text has.
fn packed_len(bytes: &[u8]) -> usize {
    let mut at = 0;
    let mut len = 0;
    'counting: while bytes.len() - at >= 8 {
        let (taken, encoded) = front_group(&bytes[at..]);
        at += taken;
        len += encoded;
    }
    len
}

// Writes the packed text into a buffer of just its length.
fn write_text(bytes: &[u8], text: &mut [u8]) {
    let mut at = 0;
    let mut len = 0;
    'writing: while bytes.len() - at >= 8 {
        let rest = &bytes[at..];
        let (taken, encoded) = front_group(rest);
        write_group(&rest[..taken], &mut text[len..len + encoded]);
        at += taken;
        len += encoded;
    }
}

/// How many bytes the words of the group in front have, and how many bytes encode them.
#[inline(always)]
pub(crate) fn front_group(bytes: &[u8]) -> (usize, usize) {
    let word = word_at(bytes, 0);
    let tag = tag_of_word(word);
    match tag {
        0 => (8 + 8 * zero_words(&bytes[8..]), 2),
        255 => {
            let more = full_words(&bytes[8..]);
            (8 + 8 * more, 10 + 8 * more)
        }
        _ => (8, 1 + count_present(word) as usize),
    }
}

// The word at a place.
#[inline(always)]
fn word_at(bytes: &[u8], place: usize) -> u64 {
    LittleEndian::read_u64(&bytes[8 * place..])
}

// How many words in front are zero, as far as a group goes on with them.
fn zero_words(bytes: &[u8]) -> usize {
    let most = (bytes.len() / 8).min(255);
    // By the length of the rest rustc sees that the next word is there.
    let mut rest = &bytes[..8 * most];
    let mut count = 0;
    'words: while rest.len() >= 8 && word_at(rest, 0) == 0 {
        rest = &rest[8..];
        count += 1;
    }
    count
}

// How many words in front have at most one zero byte, as far as a group goes on with them.
fn full_words(bytes: &[u8]) -> usize {
    let most = (bytes.len() / 8).min(255);
    let mut rest = &bytes[..8 * most];
    let mut count = 0;
    'words: while rest.len() >= 8 && count_zeros(word_at(rest, 0)) <= 1 {
        rest = &rest[8..];
        count += 1;
    }
    count
}

/// Writes the group that encodes just these words.
#[inline(always)]
pub(crate) fn write_group(bytes: &[u8], text: &mut [u8]) {
    let word = word_at(bytes, 0);
    let tag = tag_of_word(word);
    text[0] = tag;
    match tag {
        0 => text[1] = (bytes.len() / 8 - 1) as u8,
        255 => {
            text[1..9].copy_from_slice(&bytes_of(word));
            text[9] = (bytes.len() / 8 - 1) as u8;
            text[10..].copy_from_slice(&bytes[8..]);
        }
        _ => {
            let count = count_present(word) as usize;
            text[1..].copy_from_slice(&squeezed(tag, word)[..count]);
        }
    }
}
