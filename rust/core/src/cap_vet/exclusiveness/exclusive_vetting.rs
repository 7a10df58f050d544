// crates/cap_vet/src/exclusiveness/exclusive_vetting.rt without its contracts, by tools/erase: that text is proved, this one is only tested.
//! The verdict of a message of which no word may be used twice.

#[cfg(feature = "std")]
use crate::rattle::Vec;

use crate::cap_frame::Segments;
use crate::cap_spec::StrictRefusal;
use crate::cap_vet::demanded_vetting::vet_with;
use crate::cap_vet::exclusiveness::exclusive::Exclusive;
use crate::cap_vet::exclusiveness::marks::{fill_starts, numbers_for, Marks};
use crate::cap_vet::exclusiveness::overlap_turn::{Overlap, OverlapSearch};
use crate::cap_vet::nodes::vetted::Vetted;
use crate::cap_vet::strictness::path_strictness::strict_fault;
use crate::cap_vet::strictness::strict_turn::{LaxPointer, LaxSearch};
use crate::cap_walk::{limits_under, unamplified_words, walk, Demands, Limits, Report, Stopped};
use crate::rattle::alloc::Global;
use arrayvec::ArrayVec;

/// Why a message isn't exclusive.
#[derive(Clone, Copy, Debug, PartialEq, Eq)]
pub enum ExclusiveRefusal {
    /// It isn't accepted at all, or doesn't meet the demands.
    Refused(StrictRefusal),
    /// A pointer uses a word twice, the root word, or a word that an earlier pointer uses.
    Overlap {
        /// The segment of the first such pointer in preorder.
        segment: u32,
        /// Its word in that segment.
        word: u32,
        /// How many pointer words were looked at, that one included.
        pointers: u64,
    },
    /// Allocating the marks failed.
    Memory,
}

/// Vets a message under demands, and accepts it if also no word is used twice: by two pointers that
/// paths reach, by one pointer, or by the root (profile). A pointer uses its landing pads, also if it
/// is null or a capability. It uses the words of its object, the tag among them. An object without
/// words uses none, wherever it starts.
///
/// Walks once, but for amplified messages with an overlap: these are walked a second time, without
/// marks. Allocates once: one bit for each word of the message, and at most 64 bits more. Where that
/// fails, the message is vetted all the same.
///
/// # Errors
///
/// - [`ExclusiveRefusal::Refused`]: [`crate::vet_with`] refuses the message.
/// - [`ExclusiveRefusal::Memory`]: the message meets the demands, and the allocation failed.
/// - [`ExclusiveRefusal::Overlap`]: the message meets the demands, and a pointer overlaps. It is the
///   first in preorder that uses a word which is used already.
#[cfg(feature = "std")]
pub fn vet_exclusive<'m, M: Segments>(
    alloc: Global,
    message: &'m M,
    limits: Limits,
    demands: Demands,
) -> Result<Exclusive<'m, M>, ExclusiveRefusal> {
    // Without a root word there is nothing to mark.
    if message.len(0) == 0 {
        return Err(without_marks(message, limits, demands));
    }
    let mut bits = if let Ok(bits) = Vec::from_elem(alloc, 0u64, numbers_for(message)) {
        bits
    } else {
        return Err(without_marks(message, limits, demands));
    };
    match vet_marking(message, limits, demands, bits.as_mut_slice()) {
        Ok((vetted, None)) => Ok(Exclusive { vetted }),
        Ok((_, Some(overlap))) => Err(refusal_for(overlap)),
        Err(refusal) => Err(ExclusiveRefusal::Refused(refusal)),
    }
}

// Why a message isn't exclusive if its words can't be marked.
#[cold]
#[inline(never)]
fn without_marks<M: Segments>(message: &M, limits: Limits, demands: Demands) -> ExclusiveRefusal {
    match vet_with(message, limits, demands) {
        Ok(_) => ExclusiveRefusal::Memory,
        Err(refusal) => ExclusiveRefusal::Refused(refusal),
    }
}

// The refusal for a pointer that overlaps.
fn refusal_for(overlap: Overlap) -> ExclusiveRefusal {
    ExclusiveRefusal::Overlap {
        segment: overlap.segment,
        word: overlap.word,
        pointers: overlap.pointers,
    }
}

// Vets a message under demands, and looks for the first pointer that overlaps.
fn vet_marking<'m, M: Segments>(
    message: &'m M,
    limits: Limits,
    demands: Demands,
    bits: &mut [u64],
) -> Result<(Vetted<'m, M>, Option<Overlap>), StrictRefusal> {
    let within = limits_under(message, limits, demands);
    let most = unamplified_words(message);
    let mut report = Report::default();
    let firsts = match mark_message(message, &within, most, bits, &mut report) {
        Ok(firsts) => firsts,
        Err(Stopped::Refused(refusal)) => return Err(StrictRefusal::Refused(refusal)),
        Err(Stopped::ByTurn(first)) => return vet_overlapping(message, limits, demands, first),
    };
    match strict_fault(message, demands, firsts.lax) {
        None => Ok((Vetted { message, report }, firsts.overlap)),
        Some(fault) => Err(fault),
    }
}

// Vets a message of which this is the first pointer that overlaps, without marks.
#[cold]
#[inline(never)]
fn vet_overlapping<'m, M: Segments>(
    message: &'m M,
    limits: Limits,
    demands: Demands,
    first: Overlap,
) -> Result<(Vetted<'m, M>, Option<Overlap>), StrictRefusal> {
    match vet_with(message, limits, demands) {
        Ok(vetted) => Ok((vetted, Some(first))),
        Err(refusal) => Err(refusal),
    }
}

impl<'m, M: Segments> Vetted<'m, M> {
    /// The same message as one of which no word is used twice (profile), as for
    /// [`crate::vet_exclusive`]. Walks the message once more, up to the first overlap. Allocates once:
    /// one bit for each word of the message, and at most 64 bits more.
    ///
    /// # Errors
    ///
    /// [`ExclusiveRefusal::Refused`] is never returned.
    ///
    /// - [`ExclusiveRefusal::Memory`]: the allocation failed.
    /// - [`ExclusiveRefusal::Overlap`]: a pointer overlaps. It is the first in preorder that uses a
    ///   word which is used already.
    #[cfg(feature = "std")]
    pub fn into_exclusive(self, alloc: Global) -> Result<Exclusive<'m, M>, ExclusiveRefusal> {
        let mut marks = if let Ok(marks) = Vec::from_elem(alloc, 0u64, numbers_for(self.message)) {
            marks
        } else {
            return Err(ExclusiveRefusal::Memory);
        };
        match first_overlap(self.message, marks.as_mut_slice()) {
            None => Ok(Exclusive { vetted: self }),
            Some(overlap) => Err(refusal_for(overlap)),
        }
    }
}

/// The first pointer that overlaps in an accepted message. Walks the message once more, and stops there.
pub(crate) fn first_overlap<M: Segments>(message: &M, bits: &mut [u64]) -> Option<Overlap> {
    let mut report = Report::default();
    match mark_message(message, &Limits::greatest(), 0, bits, &mut report) {
        Ok(firsts) => firsts.overlap,
        Err(Stopped::ByTurn(first)) => Some(first),
        // The message is accepted.
        Err(Stopped::Refused(_)) => unreachable!(),
    }
}

/// The pointers that a walk has found, each the first of its kind in preorder.
#[derive(Clone, Copy)]
struct Firsts {
    overlap: Option<Overlap>,
    lax: Option<LaxPointer>,
}

// Walks a message, and marks what each pointer uses. After an overlap the walk stops at a pointer past
// number `most`. A table of where the bits of its segments start is made ready for each message of
// several alone.
fn mark_message<M: Segments>(
    message: &M,
    limits: &Limits,
    most: u64,
    bits: &mut [u64],
    report: &mut Report,
) -> Result<Firsts, Stopped<Overlap>> {
    if message.count() == 1 {
        return mark_all(message, limits, most, &[0], bits, report);
    }
    mark_segments(message, limits, most, bits, report)
}

// The same of a message of several segments.
#[cold]
#[inline(never)]
fn mark_segments<M: Segments>(
    message: &M,
    limits: &Limits,
    most: u64,
    bits: &mut [u64],
    report: &mut Report,
) -> Result<Firsts, Stopped<Overlap>> {
    let mut starts = ArrayVec::new();
    fill_starts(message, &mut starts);
    mark_all(message, limits, most, starts.as_slice(), bits, report)
}

// The same with a table of where the bits of each segment start.
fn mark_all<M: Segments>(
    message: &M,
    limits: &Limits,
    most: u64,
    starts: &[u64],
    bits: &mut [u64],
    report: &mut Report,
) -> Result<Firsts, Stopped<Overlap>> {
    let mut search = OverlapSearch {
        marks: Marks { starts, bits },
        first: None,
        most,
        strictness: LaxSearch { first: None },
    };
    if !search.marks.mark_words(0, 0, 1) {
        unreachable!();
    }
    match walk(message, limits, &mut search, report) {
        Ok(()) => Ok(Firsts {
            overlap: search.first,
            lax: search.strictness.first,
        }),
        Err(stopped) => Err(stopped),
    }
}
