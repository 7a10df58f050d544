// crates/cap_words/src/sources.rt without its contracts, by tools/erase: that text is proved, this one is only tested.
//! Sources of words.

#[cfg(feature = "std")]
use crate::rattle::Vec;

use crate::cap_words::byte_io::InFault;
use crate::cap_words::word::bytes_of;

/// Why a source gave no word.
#[derive(Clone, Copy, Debug, PartialEq, Eq)]
pub enum SourceFault {
    /// The input ended inside a word, or inside a group of packed words. `byte` is the position then.
    Truncated { byte: u64 },
    /// The input's device failed in this call.
    Device,
    /// An earlier fault has ended the source, or its input.
    Spent,
}

impl From<InFault> for SourceFault {
    fn from(fault: InFault) -> SourceFault {
        match fault {
            InFault::Device => SourceFault::Device,
            InFault::Spent => SourceFault::Spent,
        }
    }
}

/// Words that come in.
pub trait WordSource {
    /// The next word, or `None` if the input ends between words, and from then on.
    ///
    /// # Errors
    ///
    /// After an error every call returns `Spent`.
    ///
    /// - [`SourceFault::Truncated`]: the input ended inside a word, or inside a
    ///   group of packed words. `byte` is the position then.
    /// - [`SourceFault::Device`]: the device of the input failed in this call.
    /// - [`SourceFault::Spent`]: an earlier error has closed the source, or its input.
    fn next(&mut self) -> Result<Option<u64>, SourceFault>;

    /// Gives the bytes of buffered words, as far as `out` has space for whole ones, and returns how
    /// many bytes these are. The device isn't called. 0 doesn't say that no words are to come:
    /// `next` does. The bytes of `out` after those given may be overwritten, even if the result is
    /// 0.
    fn ready(&mut self, out: &mut [u8]) -> usize {
        // For the proof alone: the range of this number.
        let _capacity = out.len();
        0
    }

    /// Appends buffered bytes that are the next words literally, and returns how many bytes these
    /// are. They are whole words of no more than `most` bytes, and within the capacity of `out`.
    /// The device isn't called. 0 doesn't say that no words are to come or buffered: `next` and
    /// `ready` do.
    #[cfg(feature = "std")]
    fn append(&mut self, out: &mut Vec<u8>, most: usize) -> usize {
        // For the proof alone: the range of this number.
        let _capacity = out.len().min(most);
        0
    }

    /// Fills the whole words of `out` with the bytes of the next words. `false` if the input ends
    /// between words before `out` is full, and from then on. If `out` is shorter than a word, the
    /// result is `true` and nothing happens. Less than a word at the end of `out` stays as it is.
    ///
    /// # Errors
    ///
    /// The errors are those of `next`. After one every call with space for a word returns `Spent`.
    /// After an error, and after `false`, the whole words of `out` hold anything, and how many
    /// words came isn't known.
    fn fill(&mut self, out: &mut [u8]) -> Result<bool, SourceFault> {
        let whole = out.len() / 8 * 8;
        let mut done = 0;
        while done < whole {
            let count = self.ready(&mut out[done..whole]);
            if count > 0 {
                done += count;
                continue;
            }
            match self.next() {
                Ok(Some(word)) => {
                    out[done..done + 8].copy_from_slice(&bytes_of(word));
                    done += 8;
                }
                Ok(None) => return Ok(false),
                Err(fault) => return Err(fault),
            }
        }
        Ok(true)
    }

    /// Whether bytes of the input are buffered, so that the next word may come without a call of
    /// the device. `false` doesn't say that no words are to come: `next` does. A source that has
    /// ended or failed has no buffered bytes, nor has one with a closed input.
    fn is_buffered(&self) -> bool {
        false
    }

    /// How many bytes of the input were read so far, or 2^64 - 1 where there were more.
    fn position(&self) -> u64;
}
