// crates/cap_path/src/lib.rt without its contracts, by tools/erase: that text is proved, this one is only tested.
//! The text of a path, and its steps.

#[cfg(feature = "std")]
mod parsing;
mod reading;
mod steps;

pub use crate::cap_spec::Step;
#[cfg(feature = "std")]
pub use parsing::{parse_path, PathFault};
pub use steps::{read_path, PathSteps};
