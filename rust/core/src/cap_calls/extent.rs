// crates/cap_calls/src/extent.rt without its contracts, by tools/erase: that text is proved, this one is only tested.
//! Where a segment is in a frame.

/// Where the words of a segment are in a frame, laid out as C has it.
#[repr(C)]
#[derive(Clone, Copy, Debug, PartialEq, Eq)]
pub struct CallExtent {
    /// Where they start, in bytes counted from the first byte of the frame.
    pub offset: u64,
    /// How many bytes they are.
    pub length: u64,
}
