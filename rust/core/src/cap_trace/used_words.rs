// crates/cap_trace/src/used_words.rt without its contracts, by tools/erase: that text is proved, this one is only tested.
//! The words that following a pointer uses.

use crate::cap_frame::Segments;
use crate::cap_ptr::{far_segment, follow, kind, pad, two, Followed, Place};

/// The words that following a pointer uses: those of its landing pads and those of its object.
#[derive(Clone, Copy)]
pub(crate) struct UsedWords {
    pub(crate) pads: Place,
    pub(crate) object: Place,
}

impl UsedWords {
    /// The words that following word `w` of segment `s` uses. `None` if it can't be followed.
    pub(crate) fn at<M: Segments>(message: &M, s: u32, w: u32) -> Option<UsedWords> {
        match follow(message, s, w) {
            Ok(followed) => Some(UsedWords {
                pads: pads_at(message.word(s, w)),
                object: object_at(&followed),
            }),
            Err(_) => None,
        }
    }

    /// Whether some word is one of these and one of the others.
    fn meet(&self, others: &UsedWords) -> bool {
        others.meet_range(&self.pads) || others.meet_range(&self.object)
    }

    // Whether some word of this range is one of these.
    fn meet_range(&self, range: &Place) -> bool {
        overlap(range, &self.pads) || overlap(range, &self.object)
    }
}

/// Whether following word `w` of segment `s` uses one of these words.
pub(crate) fn uses_one<M: Segments>(message: &M, s: u32, w: u32, words: &UsedWords) -> bool {
    match UsedWords::at(message, s, w) {
        Some(used) => used.meet(words),
        None => false,
    }
}

// The words of the object that a pointer leads to.
fn object_at(followed: &Followed) -> Place {
    match followed {
        Followed::Target(target) => Place::of(target),
        Followed::Null { .. } | Followed::Cap { .. } => Place::NONE,
    }
}

// The words of the landing pad of a pointer word.
fn pads_at(word: u64) -> Place {
    if kind(word) != 2 {
        return Place::NONE;
    }
    Place {
        segment: far_segment(word),
        start: pad(word),
        words: 1 + u32::from(two(word)),
    }
}

// Whether some word is in both ranges.
fn overlap(a: &Place, b: &Place) -> bool {
    if a.segment != b.segment {
        return false;
    }
    let start = u64::from(a.start).max(u64::from(b.start));
    let a_end = u64::from(a.start) + u64::from(a.words);
    let b_end = u64::from(b.start) + u64::from(b.words);
    start < a_end.min(b_end)
}
