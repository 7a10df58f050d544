// crates/cap_canon/src/lib.rt without its contracts, by tools/erase: that text is proved, this one is only tested.
//! The canonical copy of an accepted message, as words, as bytes or into a buffer, its length, and
//! whether a message is its own copy.

mod appended;
mod appending;
mod buffer;
#[cfg(feature = "std")]
mod bytes;
mod checked_vetting;
mod copying;
mod fault;
mod in_order;
mod in_order_lists;
mod length;
mod objects;
mod output;
mod over;
mod run;
mod stack;
mod trimming;
mod values;
mod walk;
mod wholeness;
mod word_bytes;
mod words;

pub use crate::cap_spec::CanonFault;
pub use buffer::{canonical_from, canonical_into};
#[cfg(feature = "std")]
pub use bytes::canonical_bytes;
pub use checked_vetting::{check_with, is_canonical};
#[cfg(feature = "std")]
pub use copying::canonical;
pub use fault::BufferFault;
pub use length::canonical_len;
#[cfg(feature = "std")]
pub use over::canonical_over;
