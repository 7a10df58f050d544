// crates/cap_difference/src/lib.rt without its contracts, by tools/erase: that text is proved, this one is only tested.
//! Why an accepted message isn't its own canonical copy: the first pointer at which they differ, and the
//! reason.

mod difference;
mod elements;
mod lists;
mod nulls;
mod objects;
mod pointers;
mod reading;
mod reason;
mod structs;

pub use difference::{first_difference, Difference};
pub use reason::DifferenceReason;
