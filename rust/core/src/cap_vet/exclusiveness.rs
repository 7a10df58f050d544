// crates/cap_vet/src/exclusiveness.rt without its contracts, by tools/erase: that text is proved, this one is only tested.
//! Exclusive messages: those in which no two pointers use the same word.

pub(crate) mod exclusive;
pub(crate) mod exclusive_buffer;
pub(crate) mod exclusive_vetting;
pub(crate) mod marks;
pub(crate) mod overlap_turn;
