// crates/cap_canon/src/fault.rt without its contracts, by tools/erase: that text is proved, this one is only tested.
//! Why no canonical copy is written into a buffer.

/// Why no canonical copy was written into the caller's buffer.
#[derive(Clone, Copy, Debug, PartialEq, Eq)]
pub enum BufferFault {
    /// A path leads to a capability, the first in preorder by this pointer word.
    HasCapability {
        /// Its segment, counted from 0.
        segment: u32,
        /// Its word in that segment, counted from 0.
        word: u32,
    },
    /// The buffer is too small.
    BufferTooSmall {
        /// How many bytes the copy has.
        needed: usize,
    },
}
