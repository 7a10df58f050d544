// crates/cap_words/src/from_read.rt without its contracts, by tools/erase: that text is proved, this one is only tested.
//! An input over std's readers.

use crate::cap_words::byte_io::{ByteIn, InFault};
use std::io::Read;

/// Reads from a std reader. Each error of the reader, an interruption too, is one failure, and
/// the reader isn't called again after it.
pub struct FromRead<R: Read> {
    reader: R,
    failed: bool,
}

impl<R: Read> FromRead<R> {
    /// An input with all that `reader` has still to come.
    pub fn new(reader: R) -> FromRead<R> {
        FromRead {
            reader,
            failed: false,
        }
    }

    /// Gives the reader back as it is.
    pub fn into_inner(self) -> R {
        self.reader
    }
}

impl<R: Read> ByteIn for FromRead<R> {
    fn held(&self) -> &[u8] {
        &[]
    }

    fn skip(&mut self, _count: usize) {}

    fn read(&mut self, buf: &mut [u8]) -> Result<usize, InFault> {
        if buf.is_empty() {
            return Ok(0);
        }
        if self.failed {
            return Err(InFault::Spent);
        }
        match self.reader.read(buf) {
            Ok(count) => Ok(count),
            Err(_) => {
                self.failed = true;
                Err(InFault::Device)
            }
        }
    }
}
