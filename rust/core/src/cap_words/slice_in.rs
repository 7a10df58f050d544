// crates/cap_words/src/slice_in.rt without its contracts, by tools/erase: that text is proved, this one is only tested.
//! An input over bytes in memory.

use crate::cap_words::byte_io::{ByteIn, InFault};

/// Reads a byte slice. It never fails.
#[derive(Clone, Copy, Debug)]
pub struct SliceIn<'a> {
    // what is still to come
    rest: &'a [u8],
}

impl<'a> SliceIn<'a> {
    /// An input with all of `bytes` still to come.
    pub fn new(bytes: &'a [u8]) -> SliceIn<'a> {
        SliceIn { rest: bytes }
    }
}

impl ByteIn for SliceIn<'_> {
    #[inline(always)]
    fn held(&self) -> &[u8] {
        self.rest
    }

    #[inline(always)]
    fn skip(&mut self, count: usize) {
        let count = count.min(self.rest.len());
        if count > 0 {
            self.rest = &self.rest[count..];
        }
    }

    fn read(&mut self, buf: &mut [u8]) -> Result<usize, InFault> {
        if buf.is_empty() {
            return Ok(0);
        }
        let count = buf.len().min(self.rest.len());
        let (given, rest) = self.rest.split_at(count);
        buf[..count].copy_from_slice(given);
        self.rest = rest;
        Ok(count)
    }
}
