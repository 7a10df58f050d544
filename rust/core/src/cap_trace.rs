// crates/cap_trace/src/lib.rt without its contracts, by tools/erase: that text is proved, this one is only tested.
//! The path of a pointer word of a message, by the word's number in preorder; the last cycle on it; and the
//! first pointer that uses a word that it uses.

mod below;
mod branch;
mod earlier;
mod naming;
mod returning;
mod seeking;
mod slot;
mod tracing;
mod used_words;

pub use earlier::{earlier_pointer, EarlierPointer};
pub use naming::NamedPath;
pub use returning::{last_cycle, Cycle};
pub use slot::StepSlot;
pub use tracing::path_of_pointer;
