// crates/cap_walk/src/demands.rt without its contracts, by tools/erase: that text is proved, this one is only tested.
//! What may be demanded of a message beside the limits.

use crate::cap_frame::{message_words, Segments};
use crate::cap_walk::limits::Limits;

/// How many words more than the segments of an unamplified message have may be charged.
const SLACK: u64 = 4096;

/// What is demanded of a message beside the limits. By default nothing.
#[derive(Clone, Copy, Debug, Default, PartialEq, Eq)]
pub struct Demands {
    /// It has to be strict, as for `vet_strict`.
    pub strict: bool,
    /// It has to be unamplified: its charge is at most the words of its segments and 4,096 more.
    pub unamplified: bool,
}

/// The limits within which a message has to be accepted under the demands.
pub fn limits_under<M: Segments>(message: &M, limits: Limits, demands: Demands) -> Limits {
    if demands.unamplified {
        return limits.lowered(unamplified_words(message));
    }
    limits
}

/// The highest charge of an unamplified message.
pub fn unamplified_words<M: Segments>(message: &M) -> u64 {
    message_words(message) + SLACK
}
