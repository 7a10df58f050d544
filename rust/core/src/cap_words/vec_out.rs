// crates/cap_words/src/vec_out.rt without its contracts, by tools/erase: that text is proved, this one is only tested.
//! An output into memory.

#[cfg(feature = "std")]
use crate::rattle::Vec;

use crate::cap_words::byte_io::{ByteOut, OutFault};
use crate::rattle::alloc::Global;

/// Appends to a vector: all bytes of a call, or nothing if the vector can't grow. A later call may
/// succeed then. It is closed after 2^64 - 1 failed allocations.
pub struct VecOut {
    bytes: Vec<u8>,
    refused: u64,
}

impl VecOut {
    /// An output that holds no bytes yet.
    pub fn new(alloc: Global) -> VecOut {
        VecOut {
            bytes: Vec::new(alloc),
            refused: 0,
        }
    }

    /// The bytes that were written so far.
    pub fn bytes(&self) -> &[u8] {
        self.bytes.as_slice()
    }
}

impl ByteOut for VecOut {
    /// Takes all the bytes, or none where the vector can't grow.
    fn write(&mut self, buf: &[u8]) -> Result<usize, OutFault> {
        if buf.is_empty() {
            return Ok(0);
        }
        if self.refused == u64::MAX {
            return Err(OutFault::Spent);
        }
        if self.bytes.extend_from_slice(buf).is_err() {
            self.refused += 1;
            return Err(OutFault::Memory);
        }
        Ok(buf.len())
    }
}
