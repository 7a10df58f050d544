// crates/cap_vet/src/nodes/near_found.rt without its contracts, by tools/erase: that text is proved, this one is only tested.
//! What a pointer on a path leads to, where the pointer word describes it.

use crate::cap_frame::Segments;
use crate::cap_ptr::{levels_taken, near_target, struct_list, Place, Target};
use crate::cap_spec::Kind;
use crate::cap_vet::nodes::found::{object, Found};

/// What word `w` of segment `s` leads to, and its charge, where `left` words may still be charged and its target
/// has this level. Returns a result only if the word is null, or describes its object, alone or with
/// the tag of a list of structs, and if that is within the limits.
#[inline(always)]
pub(crate) fn found_near<M: Segments>(
    message: &M,
    left: u64,
    depth: u32,
    s: u32,
    w: u32,
    level: u64,
) -> Option<(Found, u64)> {
    let word = message.word(s, w);
    if word == 0 {
        let null = Found {
            kind: Kind::Null,
            place: Place::NONE,
        };
        return Some((null, 0));
    }
    if let Some(target) = near_target(word, s, w, message.len(s)) {
        return object_within(target, left, depth, level);
    }
    let list = struct_list(message, 0, s, w, word)?;
    object_within(list, left, depth, level)
}

// This object and its charge, if it is within the limits.
#[inline(always)]
fn object_within(target: Target, left: u64, depth: u32, level: u64) -> Option<(Found, u64)> {
    let deepest = level + u64::from(levels_taken(&target.shape));
    if deepest > u64::from(depth) || target.charge > left {
        return None;
    }
    Some((object(target), target.charge))
}
