// crates/cap_words/src/from_write.rt without its contracts, by tools/erase: that text is proved, this one is only tested.
//! An output over std's writers.

use crate::cap_words::byte_io::{ByteOut, OutFault};
use std::io::Write;

/// Writes to a std writer, and flushes it where `flush` asks for it. Each error of the writer, an
/// interruption too, is one failure, and so is a write that takes none of some bytes. The writer
/// isn't called again after it, and from then on `flush` answers `Spent` too.
pub struct FromWrite<W: Write> {
    writer: W,
    failed: bool,
}

impl<W: Write> FromWrite<W> {
    /// An output that appends to what `writer` holds.
    pub fn new(writer: W) -> FromWrite<W> {
        FromWrite {
            writer,
            failed: false,
        }
    }

    /// Whether the writer has failed, so that it isn't called any more.
    pub fn has_failed(&self) -> bool {
        self.failed
    }

    /// Gives the writer back as it is. Nothing is written or flushed.
    pub fn into_inner(self) -> W {
        self.writer
    }
}

impl<W: Write> ByteOut for FromWrite<W> {
    fn write(&mut self, buf: &[u8]) -> Result<usize, OutFault> {
        if buf.is_empty() {
            return Ok(0);
        }
        if self.failed {
            return Err(OutFault::Spent);
        }
        match self.writer.write(buf) {
            Ok(count) if count > 0 => Ok(count),
            _ => {
                self.failed = true;
                Err(OutFault::Device)
            }
        }
    }

    fn flush(&mut self) -> Result<(), OutFault> {
        if self.failed {
            return Err(OutFault::Spent);
        }
        let answer = self.writer.flush();
        self.failed = answer.is_err();
        answer.map_err(|_| OutFault::Device)
    }
}
