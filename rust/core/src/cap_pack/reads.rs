// crates/cap_pack/src/reads.rt without its contracts, by tools/erase: that text is proved, this one is only tested.
//! Reading the head of a group, and a literal word.

use super::head::{front_head, head_len, head_of, Head, LONGEST_HEAD};
use crate::cap_words::{word_of, ByteIn, Counted, SourceFault};

// The head of the next group, where as many bytes are buffered as any head has. It is decoded where
// it is. Else nothing happens.
#[inline(always)]
fn buffered_head<I: ByteIn>(bytes: &mut Counted<I>) -> Option<Head> {
    let read = bytes.read;
    let held = bytes.input.held();
    if held.len() < LONGEST_HEAD {
        return None;
    }
    let head = front_head(held)?;
    let len = 1 + head_len(held[0]);
    bytes.input.skip(len);
    bytes.read = read.saturating_add(len as u64);
    Some(head)
}

/// The head of the next group, or `None` where the input ends before it.
#[inline(always)]
pub(crate) fn read_head<I: ByteIn>(bytes: &mut Counted<I>) -> Result<Option<Head>, SourceFault> {
    if let Some(head) = buffered_head(bytes) {
        return Ok(Some(head));
    }
    read_split_head(bytes)
}

// The same where the head may not be buffered whole: its bytes are copied.
#[cold]
#[inline(never)]
fn read_split_head<I: ByteIn>(bytes: &mut Counted<I>) -> Result<Option<Head>, SourceFault> {
    let mut tag = [0];
    match bytes.fill(&mut tag) {
        Ok(0) => return Ok(None),
        Ok(_) => {}
        Err(fault) => return Err(SourceFault::from(fault)),
    }
    let tag = tag[0];
    let mut buffer = [0; 9];
    match read_whole(bytes, &mut buffer[..head_len(tag)]) {
        Ok(()) => Ok(Some(head_of(tag, &buffer))),
        Err(fault) => Err(fault),
    }
}

/// The next word as it is.
pub(crate) fn read_word<I: ByteIn>(bytes: &mut Counted<I>) -> Result<u64, SourceFault> {
    let mut word = [0; 8];
    match read_whole(bytes, &mut word) {
        Ok(()) => Ok(word_of(&word)),
        Err(fault) => Err(fault),
    }
}

// Fills a buffer with the next bytes.
fn read_whole<I: ByteIn>(bytes: &mut Counted<I>, buf: &mut [u8]) -> Result<(), SourceFault> {
    match bytes.fill(buf) {
        Ok(len) if len == buf.len() => Ok(()),
        Ok(_) => Err(SourceFault::Truncated { byte: bytes.read }),
        Err(fault) => Err(SourceFault::from(fault)),
    }
}
