// crates/cap_frame/src/segment_tables.rt without its contracts, by tools/erase: that text is proved, this one is only tested.
//! Tables of the segments of a message: their sizes, and where each starts.

use crate::cap_frame::table::{empty, Sizes};

/// Where each segment of a message starts, in words.
pub(crate) type Starts = Sizes;

/// A buffer of 4 KiB for how many words each segment of a message has, and where it starts.
/// Allocates nothing.
pub struct SegmentTables {
    pub(crate) sizes: Sizes,
    pub(crate) starts: Starts,
}

impl SegmentTables {
    /// A buffer of 4 KiB that holds no tables yet.
    pub fn new() -> SegmentTables {
        SegmentTables {
            sizes: Sizes::new(),
            starts: Starts::new(),
        }
    }
}

/// Where segments of these sizes start, one after the other.
pub(crate) fn fill_starts(sizes: &[u32], starts: &mut Starts) {
    empty(starts);
    let mut at = 0u32;
    'segments: for size in sizes {
        starts.push(at);
        at += *size;
    }
}
