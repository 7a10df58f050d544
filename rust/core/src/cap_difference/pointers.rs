// crates/cap_difference/src/pointers.rt without its contracts, by tools/erase: that text is proved, this one is only tested.
//! Why a pointer isn't as a canonical copy has it.

use crate::cap_difference::objects::object_reason;
use crate::cap_difference::reading::read_list;
use crate::cap_difference::reason::DifferenceReason;
use crate::cap_frame::Segments;
use crate::cap_ptr::{follow, kind, Followed};

/// Where a copy has the next object, if it has pointer word `w` of segment `s` as it is here, with its
/// object from word `end` on.
///
/// # Errors
///
/// The first reason why it hasn't.
#[inline(always)]
pub(crate) fn next_end<M: Segments>(
    message: &M,
    s: u32,
    w: u32,
    end: u64,
) -> Result<u64, DifferenceReason> {
    let word = message.word(s, w);
    if kind(word) == 2 {
        return Err(DifferenceReason::Far);
    }
    match follow(message, s, w) {
        Ok(Followed::Null { .. }) => Ok(end),
        Ok(Followed::Cap { .. }) => Err(DifferenceReason::Capability),
        Ok(Followed::Target(target)) => match object_reason(message, word, target, end) {
            Some(reason) => Err(reason),
            None if target.words == 0 => Ok(end),
            None => {
                read_list(message, target);
                Ok(u64::from(target.start) + u64::from(target.words))
            }
        },
        // The pointer can be followed.
        Err(_) => unreachable!(),
    }
}
