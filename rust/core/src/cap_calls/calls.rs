// crates/cap_calls/src/calls.rt without its contracts, by tools/erase: that text is proved, this one is only tested.
//! The calls, a file each.

pub(crate) mod canonical;
pub(crate) mod check_canonical;
pub(crate) mod earlier_pointer;
pub(crate) mod explain;
pub(crate) mod explain_overlap;
pub(crate) mod first_difference;
pub(crate) mod frame;
pub(crate) mod get;
pub(crate) mod get_range;
pub(crate) mod pack;
pub(crate) mod pack_message;
pub(crate) mod pointer_path;
pub(crate) mod segments;
pub(crate) mod unpack;
pub(crate) mod unpack_message;
pub(crate) mod version;
pub(crate) mod vet;
pub(crate) mod vet_exclusive;
pub(crate) mod vet_segments;
