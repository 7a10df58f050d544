// crates/cap_pack/src/head.rt without its contracts, by tools/erase: that text is proved, this one is only tested.
//! The head of a group: its tag, and the bytes after the tag that give the group's first word and
//! what comes after that one (encoding: Packing).

use super::lanes::scatter;
use byteorder::{ByteOrder, LittleEndian};

/// The most bytes that a head has, with its tag.
pub(crate) const LONGEST_HEAD: usize = 10;

/// What the head of a group says.
#[derive(Clone, Copy)]
pub struct Head {
    /// The first word.
    pub word: u64,
    /// How many zero words come after it.
    pub zeros: u8,
    /// How many literal words come after it, each by its own eight bytes.
    pub plain: u8,
}

/// How many bytes of a head follow the tag.
#[inline(always)]
pub fn head_len(tag: u8) -> usize {
    match tag {
        0 => 1,
        0xff => 9,
        _ => tag.count_ones() as usize,
    }
}

/// What a head says, by its tag and the bytes after the tag. Bytes after the head change nothing.
#[inline(always)]
pub(crate) fn head_of(tag: u8, buffer: &[u8; 9]) -> Head {
    match tag {
        0 => Head {
            word: 0,
            zeros: buffer[0],
            plain: 0,
        },
        0xff => Head {
            word: LittleEndian::read_u64(buffer),
            zeros: 0,
            plain: buffer[8],
        },
        _ => {
            let mut present = [0; 8];
            present.copy_from_slice(&buffer[..8]);
            Head {
                word: scatter(tag, &present),
                zeros: 0,
                plain: 0,
            }
        }
    }
}

/// What the head of the first group says, or `None` if the bytes end before it does.
#[inline(always)]
pub fn front_head(bytes: &[u8]) -> Option<Head> {
    if bytes.is_empty() {
        return None;
    }
    let tag = bytes[0];
    let len = head_len(tag);
    if bytes.len() <= len {
        return None;
    }
    Some(head_of(tag, &after_tag(bytes, len)))
}

// The nine bytes after a tag, or as many as its head has and then zeros.
#[inline(always)]
fn after_tag(bytes: &[u8], len: usize) -> [u8; 9] {
    let mut buffer = [0; 9];
    if bytes.len() > 9 {
        buffer.copy_from_slice(&bytes[1..10]);
        return buffer;
    }
    buffer[..len].copy_from_slice(&bytes[1..1 + len]);
    buffer
}
