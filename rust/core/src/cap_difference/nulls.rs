// crates/cap_difference/src/nulls.rt without its contracts, by tools/erase: that text is proved, this one is only tested.
//! Whether a pointer word denotes null.

use crate::cap_frame::Segments;
use crate::cap_ptr::{follow, Followed};

/// Whether word `w` of segment `s` denotes null: it is zero, or the landing pad that it leads to is.
pub(crate) fn is_null<M: Segments>(message: &M, s: u32, w: u32) -> bool {
    match follow(message, s, w) {
        Ok(Followed::Null { .. }) => true,
        Ok(Followed::Cap { .. }) => false,
        Ok(Followed::Target(_)) => false,
        Err(_) => false,
    }
}
