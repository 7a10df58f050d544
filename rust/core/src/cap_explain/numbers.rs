// crates/cap_explain/src/numbers.rt without its contracts, by tools/erase: that text is proved, this one is only tested.
//! The numbers that an explanation names beside those of the message.

use crate::cap_explain::charge::refusal_charge;
use crate::cap_frame::Segments;
use crate::cap_spec::StrictRefusal;
use crate::cap_trace::Cycle;
use crate::cap_walk::Limits;

/// Where in an input a message begins.
#[derive(Clone, Copy, Debug, PartialEq, Eq)]
pub struct MessageStart {
    /// Its first byte. The bytes of a packed input are counted unpacked.
    pub byte: u64,
    /// Whether the input is packed.
    pub packed: bool,
}

/// What an explanation says beside the message. It has the limits, the charge up to the refused
/// pointer, and the last cycle of the path to it. It also has where the message begins.
#[derive(Clone, Copy, Debug, PartialEq, Eq)]
pub struct Numbers {
    /// The limit of the charge, in words.
    pub words: u64,
    /// The limit of levels.
    pub depth: u32,
    /// The charge up to the pointer that is named, with its target, if the word limit is passed there.
    pub charge: Option<u64>,
    /// The last cycle on the path to the refused pointer. `None` if there is none, or if the reason is
    /// no limit.
    pub cycle: Option<Cycle>,
    /// Whether the message has a segment table, which comes before its segments.
    pub has_table: bool,
    /// Where the message begins, if it is one of a stream.
    pub start: Option<MessageStart>,
}

/// The numbers of a message that is refused within limits, with this cycle. Walks
/// only for the word limit. Allocates nothing.
// The walk keeps its runs on the stack: a caller's frame isn't to have them while it writes.
#[inline(never)]
pub fn numbers_of<M: Segments>(
    message: &M,
    refusal: &StrictRefusal,
    cycle: Option<Cycle>,
    limits: Limits,
    has_table: bool,
    start: Option<MessageStart>,
) -> Numbers {
    Numbers {
        words: limits.words(),
        depth: limits.depth(),
        charge: refusal_charge(message, refusal, limits),
        cycle,
        has_table,
        start,
    }
}
