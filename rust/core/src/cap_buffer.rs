// crates/cap_buffer/src/lib.rt without its contracts, by tools/erase: that text is proved, this one is only tested.
//! A text in a buffer of a fixed size, so that no text allocates. Lines and explanations are put
//! together in one.

mod path;
mod text_buffer;

pub use path::{STEP, STEPS};
pub use text_buffer::{TextBuffer, DIGITS, FEW_DIGITS, HASH};
