// crates/cap_words/src/buffered_in.rt without its contracts, by tools/erase: that text is proved, this one is only tested.
//! An input over std's readers, with a buffer.

#[cfg(feature = "std")]
use crate::rattle::Vec;

use crate::cap_words::byte_io::{ByteIn, InFault};
use crate::rattle::alloc::{AllocError, Global};
use std::io::Read;

// How many bytes are read at a time.
const BUFFER: usize = 65536;

/// Reads from a std reader 64 KiB at a time. Each error of the reader, an interruption too, is one
/// failure, and the reader isn't called again after it.
///
/// It does what `FromRead` over std's `BufReader` does, and is made for many reads of a few bytes:
/// those are given out of the buffer by a copy whose length the compiler knows. If nothing is
/// buffered, a read into a buffer of 64 KiB or more is one read of the reader, past its own buffer.
pub struct BufferedIn<R: Read> {
    reader: R,
    // the bytes from `start` up to `end` were read and not yet given
    buffer: Vec<u8>,
    start: usize,
    end: usize,
    failed: bool,
}

impl<R: Read> BufferedIn<R> {
    /// An input with all that `reader` has still to come. Allocates once, for its buffer of 64 KiB.
    ///
    /// # Errors
    ///
    /// - [`AllocError`]: allocating the buffer failed.
    pub fn new(alloc: Global, reader: R) -> Result<BufferedIn<R>, AllocError> {
        let mut buffer = Vec::with_capacity(alloc, BUFFER)?;
        buffer.resize(BUFFER, 0)?;
        Ok(BufferedIn {
            reader,
            buffer,
            start: 0,
            end: 0,
            failed: false,
        })
    }

    // Reads once, where all that was read has been given.
    #[cold]
    #[inline(never)]
    fn refill(&mut self) -> Result<(), InFault> {
        if self.failed {
            return Err(InFault::Spent);
        }
        match self.reader.read(self.buffer.as_mut_slice()) {
            Ok(count) => {
                self.start = 0;
                self.end = count;
                Ok(())
            }
            Err(_) => {
                self.failed = true;
                Err(InFault::Device)
            }
        }
    }

    // Reads once, straight into a buffer of its own buffer's size or more, after all that was read
    // has been given: bytes that fill the buffer are copied no second time.
    #[inline(never)]
    fn read_past(&mut self, buf: &mut [u8]) -> Result<usize, InFault> {
        if self.failed {
            return Err(InFault::Spent);
        }
        let answer = self.reader.read(buf);
        self.failed = answer.is_err();
        answer.map_err(|_| InFault::Device)
    }
}

impl<R: Read> ByteIn for BufferedIn<R> {
    #[inline(always)]
    fn held(&self) -> &[u8] {
        &self.buffer[self.start..self.end]
    }

    #[inline(always)]
    fn skip(&mut self, count: usize) {
        let count = count.min(self.end - self.start);
        if count > 0 {
            self.start += count;
        }
    }

    #[inline(always)]
    fn read(&mut self, buf: &mut [u8]) -> Result<usize, InFault> {
        if buf.is_empty() {
            return Ok(0);
        }
        if self.start == self.end {
            if buf.len() >= BUFFER {
                return self.read_past(buf);
            }
            if let Err(fault) = self.refill() {
                return Err(fault);
            }
        }
        let count = copy_front(&self.buffer[self.start..self.end], buf);
        self.start += count;
        Ok(count)
    }
}

// Copies as many bytes as there are and as `to` has space for. A copy that fills `to` is a case of
// its own. Its length is known wherever that of `to` is: for a word it is one move and no call.
#[inline(always)]
fn copy_front(from: &[u8], to: &mut [u8]) -> usize {
    let capacity = to.len();
    if capacity <= from.len() {
        to.copy_from_slice(&from[..capacity]);
        capacity
    } else {
        to[..from.len()].copy_from_slice(from);
        from.len()
    }
}
