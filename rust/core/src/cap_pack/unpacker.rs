// crates/cap_pack/src/unpacker.rt without its contracts, by tools/erase: that text is proved, this one is only tested.
//! A source of words over packed bytes.

#[cfg(feature = "std")]
use crate::rattle::Vec;

#[cfg(feature = "std")]
use super::buffered::append_words;
use super::buffered::unpack;
use super::reads::{read_head, read_word};
use crate::cap_words::{ByteIn, Counted, Phase, SourceFault, WordSource};

/// Reads the words that packed bytes encode (encoding: Packing). Every encoding is accepted: a byte
/// that its tag marks may be zero, and a run may be shorter than it could be. The head of a group
/// is read whole before the group's first word is given. Each literal word of a run is read when it
/// is asked for. Its size is fixed.
pub struct Unpacker<I: ByteIn> {
    bytes: Counted<I>,
    phase: Phase,
    // how many zero words of a run are still to be given
    zeros: u8,
    // how many words as they are are still to be read
    plain: u8,
}

impl<I: ByteIn> Unpacker<I> {
    /// The words that the packed bytes of `input` encode, from its next byte on.
    pub fn new(input: I) -> Unpacker<I> {
        Unpacker {
            bytes: Counted { input, read: 0 },
            phase: Phase::Open,
            zeros: 0,
            plain: 0,
        }
    }

    /// Writes the bytes of the next words to `out`, as far as buffered bytes encode them and `out`
    /// has space for whole ones, and returns how many bytes these are. No word is taken, and the
    /// device isn't called. The bytes of `out` after those written may be overwritten. 0 doesn't say
    /// that no words are to come or buffered.
    pub fn peek(&self, out: &mut [u8]) -> usize {
        // For the proof alone: the range of this number.
        let _read = self.bytes.read;
        match self.phase {
            Phase::Open => {}
            _ => return 0,
        }
        unpack(self.bytes.input.held(), out, self.zeros, self.plain).written
    }

    /// Gives the input back as it is: after the bytes of the last word that was given, or of its
    /// group's head.
    pub fn into_inner(self) -> I {
        self.bytes.input
    }
}

impl<I: ByteIn> WordSource for Unpacker<I> {
    fn next(&mut self) -> Result<Option<u64>, SourceFault> {
        // For the proof alone: the range of this number.
        let _position = self.bytes.read;
        match self.phase {
            Phase::Ended => return Ok(None),
            Phase::Failed => return Err(SourceFault::Spent),
            Phase::Open => {}
        }
        if self.zeros > 0 {
            self.zeros -= 1;
            return Ok(Some(0));
        }
        if self.plain > 0 {
            return match read_word(&mut self.bytes) {
                Ok(word) => {
                    self.plain -= 1;
                    Ok(Some(word))
                }
                Err(fault) => {
                    self.phase = Phase::Failed;
                    Err(fault)
                }
            };
        }
        match read_head(&mut self.bytes) {
            Ok(Some(head)) => {
                self.zeros = head.zeros;
                self.plain = head.plain;
                Ok(Some(head.word))
            }
            Ok(None) => {
                self.phase = Phase::Ended;
                Ok(None)
            }
            Err(fault) => {
                self.phase = Phase::Failed;
                Err(fault)
            }
        }
    }

    fn ready(&mut self, out: &mut [u8]) -> usize {
        // For the proof alone: the range of this number.
        let _read = self.bytes.read;
        match self.phase {
            Phase::Open => {}
            _ => return 0,
        }
        let done = unpack(self.bytes.input.held(), out, self.zeros, self.plain);
        if done.written == 0 {
            return 0;
        }
        let input = &mut self.bytes.input;
        input.skip(done.read);
        self.bytes.read = self.bytes.read.saturating_add(done.read as u64);
        self.zeros = done.zeros;
        self.plain = done.plain;
        done.written
    }

    // What is left of a run of words as they are. Inlined, since a stream may be of small messages.
    #[cfg(feature = "std")]
    #[inline(always)]
    fn append(&mut self, out: &mut Vec<u8>, most: usize) -> usize {
        // For the proof alone: the range of this number.
        let _read = self.bytes.read;
        match self.phase {
            Phase::Open => {}
            _ => return 0,
        }
        if self.zeros > 0 {
            return 0;
        }
        let words = append_words(self.plain, self.bytes.input.held(), out, most);
        if words == 0 {
            return 0;
        }
        let count = 8 * words as usize;
        let input = &mut self.bytes.input;
        input.skip(count);
        self.bytes.read = self.bytes.read.saturating_add(count as u64);
        self.plain -= words;
        count
    }

    // Zero words of a run that are still to be given are no bytes: they don't delay a flush of what
    // was written so far.
    fn is_buffered(&self) -> bool {
        match self.phase {
            Phase::Open => !self.bytes.input.held().is_empty(),
            _ => false,
        }
    }

    fn position(&self) -> u64 {
        self.bytes.read
    }
}
