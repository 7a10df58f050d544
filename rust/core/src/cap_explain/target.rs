// crates/cap_explain/src/target.rt without its contracts, by tools/erase: that text is proved, this one is only tested.
//! Where the target of a pointer is.

use crate::cap_explain::forms::excess;
use crate::cap_explain::landing::{is_short_far, Landing};
use crate::cap_explain::words::word_of;
use crate::cap_frame::Segments;
use crate::cap_ptr::{far_segment, is_structs, kind, middle, pad};

/// The target of a pointer, whether it lies inside its segment or not. It starts `start - excess`
/// words after the beginning of its segment.
#[derive(Clone, Copy)]
pub(crate) struct Target {
    /// Counted from 0.
    pub(crate) segment: u32,
    /// In words.
    pub(crate) start: u64,
    /// In words.
    pub(crate) excess: u32,
    /// The word that gives its sizes.
    pub(crate) word: u64,
}

/// The target of a struct or list pointer at word `at` of a segment.
fn target_after(segment: u32, at: u32, word: u64) -> Option<Target> {
    if word == 0 || kind(word) >= 2 {
        return None;
    }
    let bits = middle(word);
    Some(Target {
        segment,
        start: u64::from(at) + 1 + u64::from(bits),
        excess: excess(bits),
        word,
    })
}

/// The target that the two words of a landing pad lead to.
fn target_over(far: u64, tag: u64) -> Option<Target> {
    if !is_short_far(far) || kind(tag) >= 2 || middle(tag) != 0 {
        return None;
    }
    Some(Target {
        segment: far_segment(far),
        start: u64::from(pad(far)),
        excess: 0,
        word: tag,
    })
}

/// The target of the pointer `word` at word `at` of a segment, by its landing pad.
pub(crate) fn target_of(segment: u32, at: u32, word: u64, landing: Landing) -> Option<Target> {
    match landing {
        Landing::Near => target_after(segment, at, word),
        Landing::Missing => None,
        Landing::Outside => None,
        Landing::One { word: only } => target_after(far_segment(word), pad(word), only),
        Landing::Two { far, tag } => target_over(far, tag),
    }
}

/// The segment that the pointer `word` leads into, by its own segment and its landing pad.
pub(crate) fn segment_after(segment: u32, word: u64, landing: Landing) -> u32 {
    match landing {
        Landing::Near => segment,
        Landing::Missing => far_segment(word),
        Landing::Outside => far_segment(word),
        Landing::One { .. } => far_segment(word),
        Landing::Two { far, .. } => {
            if is_short_far(far) {
                far_segment(far)
            } else {
                far_segment(word)
            }
        }
    }
}

/// The tag of a list of structs, if the target begins inside its segment.
pub(crate) fn list_tag<M: Segments>(message: &M, target: &Target) -> Option<u64> {
    let excess = u64::from(target.excess);
    if !is_structs(target.word) || target.start < excess {
        return None;
    }
    word_of(message, target.segment, target.start - excess)
}
