// crates/cap_words/src/plain_words.rt without its contracts, by tools/erase: that text is proved, this one is only tested.
//! Words from the plain encoding, eight bytes a word.

use crate::cap_words::byte_io::{ByteIn, Phase};
use crate::cap_words::sources::{SourceFault, WordSource};
use crate::cap_words::transfer::Counted;
use crate::cap_words::word::word_of;

/// Reads words of eight bytes, the lowest byte first (encoding: 64-bit Words).
pub struct PlainWords<I: ByteIn> {
    bytes: Counted<I>,
    phase: Phase,
}

impl<I: ByteIn> PlainWords<I> {
    /// The words that the bytes of `input` encode.
    pub fn new(input: I) -> PlainWords<I> {
        PlainWords {
            bytes: Counted { input, read: 0 },
            phase: Phase::Open,
        }
    }

    /// The buffered bytes of the input, which hold the next words. A source that has ended or failed
    /// has none.
    pub fn held(&self) -> &[u8] {
        match self.phase {
            Phase::Open => self.bytes.input.held(),
            _ => &[],
        }
    }

    /// Gives the input back as it is.
    pub fn into_inner(self) -> I {
        self.bytes.input
    }
}

impl<I: ByteIn> WordSource for PlainWords<I> {
    // Inlined, since it is called at each word of a message.
    #[inline(always)]
    fn next(&mut self) -> Result<Option<u64>, SourceFault> {
        // For the proof alone: the range of this number.
        let _read = self.bytes.read;
        match self.phase {
            Phase::Ended => return Ok(None),
            Phase::Failed => return Err(SourceFault::Spent),
            Phase::Open => {}
        }
        let mut bytes = [0; 8];
        match self.bytes.fill(&mut bytes) {
            // Nearly every call gives a whole word, so this case is tested first.
            Ok(8) => Ok(Some(word_of(&bytes))),
            Ok(0) => {
                self.phase = Phase::Ended;
                Ok(None)
            }
            Ok(_) => {
                self.phase = Phase::Failed;
                Err(SourceFault::Truncated {
                    byte: self.bytes.read,
                })
            }
            Err(fault) => {
                self.phase = Phase::Failed;
                Err(SourceFault::from(fault))
            }
        }
    }

    fn ready(&mut self, out: &mut [u8]) -> usize {
        // For the proof alone: the range of this number.
        let _read = self.bytes.read;
        match self.phase {
            Phase::Open => {}
            _ => return 0,
        }
        let count = copy_words(self.bytes.input.held(), out);
        if count == 0 {
            return 0;
        }
        self.bytes.input.skip(count);
        self.bytes.read = self.bytes.read.saturating_add(count as u64);
        count
    }

    // The words are filled in by one read, if the input gives that many bytes at once.
    fn fill(&mut self, out: &mut [u8]) -> Result<bool, SourceFault> {
        let whole = out.len() / 8 * 8;
        if whole == 0 {
            return Ok(true);
        }
        // For the proof alone: the range of this number.
        let _read = self.bytes.read;
        match self.phase {
            Phase::Ended => return Ok(false),
            Phase::Failed => return Err(SourceFault::Spent),
            Phase::Open => {}
        }
        // no further: a read past the last word would take bytes of the next one
        let count = match self.bytes.fill(&mut out[..whole]) {
            Ok(count) => count,
            Err(fault) => {
                self.phase = Phase::Failed;
                return Err(SourceFault::from(fault));
            }
        };
        if count == whole {
            return Ok(true);
        }
        if count % 8 == 0 {
            self.phase = Phase::Ended;
            Ok(false)
        } else {
            self.phase = Phase::Failed;
            Err(SourceFault::Truncated {
                byte: self.bytes.read,
            })
        }
    }

    fn is_buffered(&self) -> bool {
        match self.phase {
            Phase::Open => !self.bytes.input.held().is_empty(),
            _ => false,
        }
    }

    fn position(&self) -> u64 {
        self.bytes.read
    }
}

// Copies as many whole words as there are and as `to` has space for. Returns how many bytes these
// are. The prover knows that they are bytes here, of a parameter, and not of a slice that a call
// returned.
#[inline(always)]
fn copy_words(from: &[u8], to: &mut [u8]) -> usize {
    let count = from.len().min(to.len()) / 8 * 8;
    to[..count].copy_from_slice(&from[..count]);
    count
}
