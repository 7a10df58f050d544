// crates/cap_pack/src/lib.rt without its contracts, by tools/erase: that text is proved, this one is only tested.
//! Packed words: the source that unpacks them, the sink that packs them, packing between buffers, and
//! kernels that take a vector of words or bytes at a time.

mod buffered;
mod buffers;
mod encoding;
mod group;
mod head;
mod in_parts;
pub mod lanes;
mod packer;
mod pieces;
mod reads;
mod unpacker;

pub use buffers::pack_into;
pub use head::{front_head, head_len, Head};
pub use in_parts::{pack_part, PackedPart, PART_BYTES};
pub use packer::Packer;
pub use unpacker::Unpacker;
