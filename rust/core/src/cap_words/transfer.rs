// crates/cap_words/src/transfer.rt without its contracts, by tools/erase: that text is proved, this one is only tested.
//! Filling a whole buffer from an input, counting what was read, and writing a whole buffer to an
//! output.

use crate::cap_words::byte_io::{ByteIn, ByteOut, InFault, OutFault};

/// How many bytes of a buffer were filled, and the fault that came before it was full.
#[derive(Clone, Copy, Debug, PartialEq, Eq)]
pub struct Filled {
    /// The bytes at the start of the buffer that came from the input.
    pub len: usize,
    /// Why there are no more of them, where it isn't that the input ended.
    pub fault: Option<InFault>,
}

/// Reads until the buffer is full, the input ends or a fault comes. The bytes before a fault are
/// kept. An empty buffer is full, and then nothing is read.
#[inline]
pub fn fill<I: ByteIn>(input: &mut I, buf: &mut [u8]) -> Filled {
    // Nearly always the first read fills the buffer, so the loop for the others is a function of
    // its own.
    match input.read(buf) {
        Ok(count) if 0 < count && count < buf.len() => {
            let rest = fill_rest(input, &mut buf[count..]);
            Filled {
                len: count + rest.len,
                fault: rest.fault,
            }
        }
        Ok(count) => Filled {
            len: count,
            fault: None,
        },
        Err(fault) => Filled {
            len: 0,
            fault: Some(fault),
        },
    }
}

// Fills what a first read left of a buffer.
#[cold]
#[inline(never)]
fn fill_rest<I: ByteIn>(input: &mut I, buf: &mut [u8]) -> Filled {
    let mut len = 0;
    while len < buf.len() {
        match input.read(&mut buf[len..]) {
            Ok(0) => break,
            Ok(count) => len += count,
            Err(fault) => {
                return Filled {
                    len,
                    fault: Some(fault),
                }
            }
        }
    }
    Filled { len, fault: None }
}

/// Writes all the bytes. With no bytes the output isn't called.
///
/// # Errors
///
/// After an error the output took a beginning of the bytes, and not all of them.
///
/// - [`OutFault::Device`]: the device of the output failed. The output is closed then.
/// - [`OutFault::Memory`]: an allocation of the output failed.
/// - [`OutFault::Spent`]: an earlier error had closed the output. It is as it was.
pub fn write_all<O: ByteOut>(output: &mut O, bytes: &[u8]) -> Result<(), OutFault> {
    let mut done = 0;
    while done < bytes.len() {
        match output.write(&bytes[done..]) {
            Ok(count) => done += count,
            Err(fault) => return Err(fault),
        }
    }
    Ok(())
}

/// An input, and how many bytes were read of it. An error is returned, and not remembered.
pub struct Counted<I: ByteIn> {
    /// The input itself.
    pub input: I,
    /// How many bytes were read so far, or 2^64 - 1 if there were more.
    pub read: u64,
}

impl<I: ByteIn> Counted<I> {
    /// Fills a buffer with the next bytes as far as there are any, and returns how many came. An
    /// empty buffer is full, and then nothing is read and nothing changes.
    ///
    /// # Errors
    ///
    /// After an error the bytes that came before it are counted, and are not known.
    ///
    /// - [`InFault::Device`]: the device of the input failed in this call.
    /// - [`InFault::Spent`]: an earlier error had closed the input. Nothing was read.
    #[inline(always)]
    pub fn fill(&mut self, buf: &mut [u8]) -> Result<usize, InFault> {
        let read = self.read;
        let filled = fill(&mut self.input, buf);
        self.read = read.saturating_add(filled.len as u64);
        match filled.fault {
            None => Ok(filled.len),
            Some(fault) => Err(fault),
        }
    }
}
