// crates/cap_explain/src/landing.rt without its contracts, by tools/erase: that text is proved, this one is only tested.
//! The landing pad of a far pointer.

use crate::cap_explain::words::word_of;
use crate::cap_frame::Segments;
use crate::cap_ptr::{far_segment, kind, pad, two};

/// The landing pad of a pointer word, as far as its words exist (encoding: Inter-Segment Pointers).
#[derive(Clone, Copy)]
pub(crate) enum Landing {
    /// There is none, since the word is no far pointer.
    Near,
    /// Its segment doesn't exist.
    Missing,
    /// It isn't all inside its segment.
    Outside,
    /// It has one word.
    One { word: u64 },
    /// It has two words.
    Two { far: u64, tag: u64 },
}

/// The landing pad of a pointer word.
pub(crate) fn landing_of<M: Segments>(message: &M, word: u64) -> Landing {
    if kind(word) != 2 {
        return Landing::Near;
    }
    let segment = far_segment(word);
    if segment >= message.count() {
        return Landing::Missing;
    }
    let start = u64::from(pad(word));
    let first = if let Some(first) = word_of(message, segment, start) {
        first
    } else {
        return Landing::Outside;
    };
    if two(word) == 0 {
        return Landing::One { word: first };
    }
    match word_of(message, segment, start + 1) {
        Some(tag) => Landing::Two { far: first, tag },
        None => Landing::Outside,
    }
}

/// A word is a far pointer to a landing pad of one word.
pub(crate) fn is_short_far(word: u64) -> bool {
    if kind(word) == 2 {
        two(word) == 0
    } else {
        false
    }
}
