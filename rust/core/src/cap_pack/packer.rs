// crates/cap_pack/src/packer.rt without its contracts, by tools/erase: that text is proved, this one is only tested.
//! A sink of words over packed bytes.

use super::encoding::BUFFER_BYTES;
use super::group::{encode_group, write_group, Group, MORE_WORDS};
use super::lanes::{full_run, zero_run};
use super::pieces::{encode_groups, read_words, PIECE_WORDS};
use crate::cap_words::{write_all, ByteOut, OutFault, SinkFault, WordSink};

/// Writes words in one packed encoding (encoding: Packing). A zero word begins the longest run of
/// zero words, at most 256. A word without a zero byte is written literally. The words after it
/// that have at most one zero byte each follow literally, at most 255. Any other word is encoded by
/// itself. It holds at most one group back, which `finish` writes.
pub struct Packer<O> {
    output: O,
    closed: bool,
    group: Group,
    // Where a group is encoded before it is written. It is before `words`, and so far from the piece
    // that `put_bytes` reads: a processor may take loads and stores some 4 KiB apart for one place.
    buffer: [u8; BUFFER_BYTES],
    // after the first word of a run of literal words
    words: [u64; MORE_WORDS],
}

impl<O: ByteOut> Packer<O> {
    /// A sink that writes to `output`, after what it took before.
    pub fn new(output: O) -> Packer<O> {
        Packer {
            output,
            closed: false,
            group: Group::Empty,
            buffer: [0; BUFFER_BYTES],
            words: [0; MORE_WORDS],
        }
    }

    /// Gives the output back as it is. Nothing is written: a group that is still open is lost.
    pub fn into_inner(self) -> O {
        self.output
    }

    /// Takes the words, one after the other.
    ///
    /// # Errors
    ///
    /// After an error every call returns `Spent`, and what the output took is a beginning of the
    /// text.
    ///
    /// - [`SinkFault::Device`]: the device of the output failed.
    /// - [`SinkFault::Memory`]: an allocation of the output failed.
    /// - [`SinkFault::Spent`]: the sink is finished, or an earlier error has closed it or its
    ///   output. A closed sink returns it also if there is no word.
    pub fn put_all(&mut self, words: &[u64]) -> Result<(), SinkFault> {
        if self.closed {
            return Err(SinkFault::Spent);
        }
        let mut done = 0;
        while done < words.len() {
            let end = words.len().min(done + PIECE_WORDS);
            if let Err(fault) = self.put_piece(&words[done..end]) {
                self.closed = true;
                return Err(SinkFault::from(fault));
            }
            done = end;
        }
        Ok(())
    }

    // Takes as many words in front into the open group as go on with it, and answers how many.
    fn extend(&mut self, words: &[u64]) -> usize {
        match self.group {
            Group::Empty => 0,
            Group::Zeros { more } => {
                let count = zero_run(words).min(255 - more as usize);
                self.group = Group::Zeros {
                    more: more + count as u8,
                };
                count
            }
            Group::Plain { first, more } => {
                let count = full_run(words).min(255 - more as usize);
                let end = more as usize + count;
                self.words[more as usize..end].copy_from_slice(&words[..count]);
                self.group = Group::Plain {
                    first,
                    more: end as u8,
                };
                count
            }
        }
    }

    // Holds these words open, and no others.
    fn open(&mut self, words: &[u64]) {
        if words.len() == 0 {
            self.group = Group::Empty;
            return;
        }
        let first = words[0];
        let more = words.len() - 1;
        if first == 0 {
            self.group = Group::Zeros { more: more as u8 };
            return;
        }
        self.words[0..more].copy_from_slice(&words[1..]);
        self.group = Group::Plain {
            first,
            more: more as u8,
        };
    }

    // Takes a piece of words. What encodes the groups that ended is written at once.
    fn put_piece(&mut self, words: &[u64]) -> Result<(), OutFault> {
        let joined = self.extend(words);
        if joined == words.len() {
            return Ok(());
        }
        let start = encode_group(self.group, &self.words, &mut self.buffer);
        let encoded = encode_groups(&words[joined..], &mut self.buffer, start);
        if let Err(fault) = write_all(&mut self.output, &self.buffer[..encoded.bytes]) {
            return Err(fault);
        }
        self.open(&words[joined + encoded.words..]);
        Ok(())
    }
}

impl<O: ByteOut> WordSink for Packer<O> {
    fn put(&mut self, word: u64) -> Result<(), SinkFault> {
        self.put_all(&[word])
    }

    fn put_bytes(&mut self, bytes: &[u8]) -> Result<(), SinkFault> {
        if self.closed {
            return Err(SinkFault::Spent);
        }
        let mut words = [0; PIECE_WORDS];
        let mut done = 0;
        while bytes.len() - done >= 8 {
            let count = read_words(&bytes[done..], &mut words);
            if let Err(fault) = self.put_piece(&words[..count]) {
                self.closed = true;
                return Err(SinkFault::from(fault));
            }
            done += 8 * count;
        }
        Ok(())
    }

    fn flush(&mut self) -> Result<(), SinkFault> {
        if self.closed {
            return Err(SinkFault::Spent);
        }
        match self.output.flush() {
            Ok(()) => Ok(()),
            Err(fault) => {
                self.closed = true;
                Err(SinkFault::from(fault))
            }
        }
    }

    fn finish(&mut self) -> Result<(), SinkFault> {
        if self.closed {
            return Err(SinkFault::Spent);
        }
        self.closed = true;
        match write_group(&mut self.output, self.group, &self.words, &mut self.buffer) {
            Ok(()) => Ok(()),
            Err(fault) => Err(SinkFault::from(fault)),
        }
    }
}
