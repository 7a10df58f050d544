// crates/cap_words/src/plain_sink.rt without its contracts, by tools/erase: that text is proved, this one is only tested.
//! Words to the plain encoding, eight bytes a word.

use crate::cap_words::byte_io::ByteOut;
use crate::cap_words::sinks::{SinkFault, WordSink};
use crate::cap_words::transfer::write_all;
use crate::cap_words::word::bytes_of;

/// Writes words of eight bytes, the lowest byte first (encoding: 64-bit Words). It holds nothing
/// back.
pub struct PlainSink<O: ByteOut> {
    output: O,
    closed: bool,
}

impl<O: ByteOut> PlainSink<O> {
    /// A sink that writes to `output`, after what it took before.
    pub fn new(output: O) -> PlainSink<O> {
        PlainSink {
            output,
            closed: false,
        }
    }

    /// Gives the output back as it is. Nothing is written.
    pub fn into_inner(self) -> O {
        self.output
    }
}

impl<O: ByteOut> WordSink for PlainSink<O> {
    fn put(&mut self, word: u64) -> Result<(), SinkFault> {
        if self.closed {
            return Err(SinkFault::Spent);
        }
        match write_all(&mut self.output, &bytes_of(word)) {
            Ok(()) => Ok(()),
            Err(fault) => {
                self.closed = true;
                Err(SinkFault::from(fault))
            }
        }
    }

    // All words at once: an output whose buffer has no space for them passes them on without a
    // copy.
    fn put_bytes(&mut self, bytes: &[u8]) -> Result<(), SinkFault> {
        let whole = bytes.len() / 8 * 8;
        if self.closed {
            return Err(SinkFault::Spent);
        }
        match write_all(&mut self.output, &bytes[..whole]) {
            Ok(()) => Ok(()),
            Err(fault) => {
                self.closed = true;
                Err(SinkFault::from(fault))
            }
        }
    }

    fn flush(&mut self) -> Result<(), SinkFault> {
        if self.closed {
            return Err(SinkFault::Spent);
        }
        match self.output.flush() {
            Ok(()) => Ok(()),
            Err(fault) => {
                self.closed = true;
                Err(SinkFault::from(fault))
            }
        }
    }

    fn finish(&mut self) -> Result<(), SinkFault> {
        if self.closed {
            return Err(SinkFault::Spent);
        }
        self.closed = true;
        Ok(())
    }
}
