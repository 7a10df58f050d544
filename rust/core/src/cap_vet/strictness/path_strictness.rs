// crates/cap_vet/src/strictness/path_strictness.rt without its contracts, by tools/erase: that text is proved, this one is only tested.
//! The first pointer on a path that common readers reject.

use crate::cap_frame::Segments;
use crate::cap_spec::StrictRefusal;
use crate::cap_vet::strictness::lax::lax_form;
use crate::cap_vet::strictness::strict_turn::LaxPointer;
use crate::cap_walk::Demands;

/// The most segments that common readers take.
const MOST_SEGMENTS: u32 = 511;

/// The first such pointer on a path that goes on to the pointer at word `w` of segment `s`, if it
/// was `before` up to there. The pointer can be followed, and is the one of this number.
#[inline(always)]
pub(crate) fn first_lax<M: Segments>(
    message: &M,
    before: Option<LaxPointer>,
    s: u32,
    w: u32,
    pointers: u64,
) -> Option<LaxPointer> {
    match before {
        Some(first) => Some(first),
        None => match lax_form(message, s, w) {
            Some(what) => Some(LaxPointer {
                what,
                segment: s,
                word: w,
                pointers,
            }),
            None => None,
        },
    }
}

/// Why a message isn't strict, if that is demanded and this is the first such pointer, on a path or of
/// all.
#[inline(always)]
pub(crate) fn strict_fault<M: Segments>(
    message: &M,
    demands: Demands,
    first: Option<LaxPointer>,
) -> Option<StrictRefusal> {
    if !demands.strict {
        return None;
    }
    if message.count() > MOST_SEGMENTS {
        return Some(StrictRefusal::ManySegments);
    }
    match first {
        Some(first) => Some(StrictRefusal::Pointer {
            what: first.what,
            segment: first.segment,
            word: first.word,
            pointers: first.pointers,
        }),
        None => None,
    }
}
