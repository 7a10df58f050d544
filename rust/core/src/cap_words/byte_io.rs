// crates/cap_words/src/byte_io.rt without its contracts, by tools/erase: that text is proved, this one is only tested.
//! The ends that bytes come in and go out by, and what a source does at its next call.

/// Why a read gave no bytes.
#[derive(Clone, Copy, Debug, PartialEq, Eq)]
pub enum InFault {
    /// The device failed in this call.
    Device,
    /// An earlier fault has ended the input.
    Spent,
}

/// Why a write took no bytes.
#[derive(Clone, Copy, Debug, PartialEq, Eq)]
pub enum OutFault {
    /// The device failed in this call.
    Device,
    /// An allocation failed in this call.
    Memory,
    /// An earlier fault has ended the output.
    Spent,
}

/// Bytes that come in.
pub trait ByteIn {
    /// The buffered bytes, which are the first of those to come. They can be taken without a call
    /// of the device. An input that an error has closed has none. An input that holds nothing back
    /// always has none.
    fn held(&self) -> &[u8];

    /// Takes the first `count` of the buffered bytes, or all of them if there are fewer. Nothing
    /// else happens: if there are none to take, the input stays as it is.
    fn skip(&mut self, count: usize);

    /// The next bytes, at most as many as `buf` has. With an empty `buf` the result is always 0,
    /// and nothing happens. Otherwise 0 is the end of the input.
    ///
    /// # Errors
    ///
    /// An error takes no bytes. After one, every call with a `buf` that isn't empty returns
    /// `Spent`.
    ///
    /// - [`InFault::Device`]: the device failed in this call.
    /// - [`InFault::Spent`]: an earlier error has closed the input.
    fn read(&mut self, buf: &mut [u8]) -> Result<usize, InFault>;
}

/// Bytes that go out.
pub trait ByteOut {
    /// Takes a beginning of the bytes, at least one of them if there is one, and returns how many.
    /// With no bytes nothing happens.
    ///
    /// # Errors
    ///
    /// An error takes no bytes.
    ///
    /// - [`OutFault::Device`]: the device failed in this call. After it every call with bytes
    ///   returns `Spent`.
    /// - [`OutFault::Memory`]: an allocation failed in this call. A later call may succeed.
    /// - [`OutFault::Spent`]: an earlier error has closed the output.
    fn write(&mut self, buf: &[u8]) -> Result<usize, OutFault>;

    /// Flushes what was written, if the output or its device holds some of it back. No byte is
    /// added or lost. An output that holds nothing back returns `Ok` even after `Device`.
    ///
    /// # Errors
    ///
    /// - [`OutFault::Device`]: the device failed in this call. After it every write with bytes
    ///   returns `Spent`, and so does `flush` if there is anything to flush.
    /// - [`OutFault::Memory`]: an allocation failed in this call.
    /// - [`OutFault::Spent`]: an earlier error has closed the output.
    fn flush(&mut self) -> Result<(), OutFault> {
        Ok(())
    }
}

/// What a source does at its next call.
#[derive(Clone, Copy)]
pub enum Phase {
    /// It goes on.
    Open,
    /// It has returned that there are no more words.
    Ended,
    /// It has returned an error.
    Failed,
}
