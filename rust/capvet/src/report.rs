//! The numbers of an accepted message, and the places of pointers.

use crate::calls::{length_of, RawReport};
use core::fmt;

/// The place of a word in a message. It has no further fields in any later version.
#[derive(Clone, Copy, Debug, PartialEq, Eq, PartialOrd, Ord, Hash)]
pub struct Position {
    /// The number of its segment, from 0.
    pub segment: u32,
    /// Its word in that segment, from 0.
    pub word: u32,
}

/// As in the lines of the program: the two numbers with a colon between them.
impl fmt::Display for Position {
    fn fmt(&self, f: &mut fmt::Formatter<'_>) -> fmt::Result {
        write!(f, "{}:{}", self.segment, self.word)
    }
}

impl Position {
    pub(crate) const fn of(raw: &RawReport) -> Self {
        Self {
            segment: raw.segment,
            word: raw.word,
        }
    }
}

/// A pointer that a refusal names.
#[derive(Clone, Copy, Debug, PartialEq, Eq, Hash)]
#[non_exhaustive]
pub struct Pointer {
    /// Its place.
    pub position: Position,
    /// Its number in preorder, from 1. Of [`peek`](crate::peek) it is the number on the path.
    pub number: u64,
}

impl Pointer {
    pub(crate) const fn of(raw: &RawReport) -> Self {
        Self {
            position: Position::of(raw),
            number: raw.pointers,
        }
    }
}

/// The numbers of an accepted message.
#[derive(Clone, Copy, Debug, PartialEq, Eq, Hash)]
#[non_exhaustive]
pub struct Report {
    /// The length of its frame in bytes, table included.
    pub length: usize,
    /// The number of its segments.
    pub segments: u32,
    /// The words in all segments, which [`Limits::message_words`](crate::Limits::message_words) bounds.
    pub words: u64,
    /// The words that a full traversal reads. An object that two pointers reach counts twice, landing pads count, and a list
    /// element without bits or words counts as one.
    pub charge: u64,
    /// The deepest level of an object. The root object has level 1; a null root gives 0.
    pub depth: u32,
    /// The number of pointers, null ones included.
    pub pointers: u64,
    /// The number of capabilities.
    pub capabilities: u64,
    /// The place of the first capability in preorder, if there is one.
    pub first_capability: Option<Position>,
}

impl Report {
    // The report of a call on an accepted frame.
    pub(crate) fn of(raw: &RawReport) -> Self {
        Self {
            length: length_of(raw),
            segments: raw.segments,
            words: raw.length / 8 - u64::from(raw.segments) / 2 - 1,
            charge: raw.charge,
            depth: raw.depth,
            pointers: raw.pointers,
            capabilities: raw.capabilities,
            first_capability: (raw.capabilities > 0).then(|| Position::of(raw)),
        }
    }

    /// The traversal limit in words that a reader needs at most to read a strict message so many times: the larger of
    /// `3 * charge + 2` and `words`, for each time.
    #[must_use]
    pub fn reader_words(&self, readings: u32) -> u64 {
        let once = self.words.max(3 * self.charge + 2);
        once * u64::from(readings)
    }

    /// The nesting limit that a reader needs at most for a strict message: `2 * depth + 1`.
    #[must_use]
    pub const fn reader_nesting(&self) -> u32 {
        2 * self.depth + 1
    }
}

/// The line of `capvet vet` after `message N: `.
impl fmt::Display for Report {
    fn fmt(&self, f: &mut fmt::Formatter<'_>) -> fmt::Result {
        let Self {
            charge,
            depth,
            pointers,
            capabilities,
            ..
        } = self;
        write!(
            f,
            "accepted charge {charge} depth {depth} pointers {pointers} caps {capabilities}"
        )
    }
}
