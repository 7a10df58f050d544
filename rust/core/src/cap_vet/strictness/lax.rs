// crates/cap_vet/src/strictness/lax.rt without its contracts, by tools/erase: that text is proved, this one is only tested.
//! The forms of a pointer that common readers reject.

use crate::cap_frame::Segments;
use crate::cap_ptr::{far_segment, kind, pad, two};
use crate::cap_spec::Lax;

/// Which of these forms the pointer at word `w` of segment `s` has, if any. The pointer can be
/// followed. Reads at most one word of its landing pad.
pub(crate) fn lax_form<M: Segments>(message: &M, s: u32, w: u32) -> Option<Lax> {
    let word = message.word(s, w);
    if kind(word) != 2 {
        return None;
    }
    let landing = message.word(far_segment(word), pad(word));
    if two(word) == 1 {
        if message.len(far_segment(landing)) == 0 {
            return Some(Lax::EmptySegment);
        }
        return None;
    }
    if landing == 0 {
        return Some(Lax::NullPad);
    }
    if kind(landing) == 3 {
        return Some(Lax::CapabilityPad);
    }
    None
}
