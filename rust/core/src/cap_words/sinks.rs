// crates/cap_words/src/sinks.rt without its contracts, by tools/erase: that text is proved, this one is only tested.
//! Sinks of words.

use crate::cap_words::byte_io::OutFault;

/// Why a sink didn't take a word, or wasn't finished.
#[derive(Clone, Copy, Debug, PartialEq, Eq)]
pub enum SinkFault {
    /// The output's device failed in this call.
    Device,
    /// An allocation of the output failed in this call.
    Memory,
    /// The sink is finished, or an earlier fault has ended it or its output.
    Spent,
}

impl From<OutFault> for SinkFault {
    fn from(fault: OutFault) -> SinkFault {
        match fault {
            OutFault::Device => SinkFault::Device,
            OutFault::Memory => SinkFault::Memory,
            OutFault::Spent => SinkFault::Spent,
        }
    }
}

/// Words that go out.
pub trait WordSink {
    /// Takes one more word. After a fault every call answers `Spent`, and what the output took is a
    /// beginning of the text.
    fn put(&mut self, word: u64) -> Result<(), SinkFault>;

    /// Takes the words of these bytes, one after the other, the lowest byte of each first; less than a
    /// word at the end is left out. After a fault every call answers `Spent`, and what the output took
    /// is a beginning of the text. A closed sink answers `Spent` also where there is no word.
    fn put_bytes(&mut self, bytes: &[u8]) -> Result<(), SinkFault>;

    /// Flushes the output, which passes on the bytes that it holds back. A word that the sink holds back
    /// itself stays: `finish` writes it. After a fault every call answers `Spent`.
    fn flush(&mut self) -> Result<(), SinkFault>;

    /// Writes what is held back. After `Ok` as after a fault every call answers `Spent`.
    fn finish(&mut self) -> Result<(), SinkFault>;
}
