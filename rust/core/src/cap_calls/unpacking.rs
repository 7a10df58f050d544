// crates/cap_calls/src/unpacking.rt without its contracts, by tools/erase: that text is proved, this one is only tested.
//! How far a message of a packed stream is unpacked.

/// How far a message of a packed stream is unpacked, laid out as C has it. All zero is the start of
/// a stream. Any numbers make one. A call returns [`crate::Answer::BadLimits`] for those that no
/// call leaves.
#[repr(C)]
#[derive(Clone, Copy, Debug, PartialEq, Eq)]
pub struct Unpacking {
    /// How many bytes of the message the buffer has.
    pub written: u64,
    /// How many zero words of the last run are still to come.
    pub zero_words: u32,
    /// How many literal words of the last run are still to come.
    pub literal_words: u32,
    /// They have to be 0.
    pub reserved: [u64; 2],
}
