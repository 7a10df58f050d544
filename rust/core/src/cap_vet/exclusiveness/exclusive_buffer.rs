// crates/cap_vet/src/exclusiveness/exclusive_buffer.rt without its contracts, by tools/erase: that text is proved, this one is only tested.
//! An accepted message as one of which no word is used twice, with the caller's buffer for the marks.

use crate::cap_frame::Segments;
use crate::cap_spec::Refusal;
use crate::cap_vet::exclusiveness::exclusive::Exclusive;
use crate::cap_vet::exclusiveness::exclusive_vetting::first_overlap;
use crate::cap_vet::exclusiveness::marks::numbers_for;
use crate::cap_vet::exclusiveness::overlap_turn::Overlap;
use crate::cap_vet::nodes::vetted::Vetted;
use crate::cap_walk::Report;

/// Why a message isn't found exclusive with the caller's buffer.
#[derive(Clone, Copy, Debug, PartialEq, Eq)]
pub enum ExclusiveFault {
    /// It isn't accepted at all.
    Refused(Refusal),
    /// It is accepted, and the buffer is too small.
    BufferTooSmall {
        /// How many numbers the marks take.
        needed: usize,
        /// The report of `vet`.
        report: Report,
    },
    /// It is accepted, and a pointer uses a word twice, the root word, or a word that an earlier pointer
    /// uses.
    Overlap {
        /// The segment of the first such pointer in preorder.
        segment: u32,
        /// Its word in that segment.
        word: u32,
        /// How many pointer words were looked at, that one included.
        pointers: u64,
    },
}

impl<'m, M: Segments> Vetted<'m, M> {
    /// As [`into_exclusive`](Vetted::into_exclusive), with the marks in the caller's buffer `marks`.
    /// Walks the message once more, up to the first overlap. Allocates nothing. The buffer may hold
    /// anything. Its first [`crate::marks_for`] numbers, for the words of the message, are cleared and
    /// used. The numbers after these stay as they are.
    ///
    /// # Errors
    ///
    /// [`ExclusiveFault::Refused`] is never returned, since the message is accepted.
    ///
    /// - [`ExclusiveFault::BufferTooSmall`]: the buffer has fewer numbers than the marks take. It is as it
    ///   was.
    /// - [`ExclusiveFault::Overlap`]: a pointer overlaps. It is the first in preorder that uses a
    ///   word which is used already.
    pub fn into_exclusive_in(self, marks: &mut [u64]) -> Result<Exclusive<'m, M>, ExclusiveFault> {
        let needed = numbers_for(self.message);
        if marks.len() < needed {
            return Err(ExclusiveFault::BufferTooSmall {
                needed,
                report: self.report,
            });
        }
        match overlap_over(self.message, &mut marks[..needed]) {
            None => Ok(Exclusive { vetted: self }),
            Some(overlap) => Err(ExclusiveFault::Overlap {
                segment: overlap.segment,
                word: overlap.word,
                pointers: overlap.pointers,
            }),
        }
    }
}

// The first pointer that overlaps in an accepted message. Clears the marks first, whatever they are.
fn overlap_over<M: Segments>(message: &M, bits: &mut [u64]) -> Option<Overlap> {
    bits.fill(0);
    first_overlap(message, bits)
}
