// crates/cap_explain/src/explanation.rt without its contracts, by tools/erase: that text is proved, this one is only tested.
//! The buffer that holds the text of an explanation.

use crate::cap_buffer::TextBuffer;

/// The most bytes of an explanation.
pub(crate) const CAPACITY: usize = 6144;

/// The lines that explain a refusal, in a buffer of 6144 bytes. A caller may keep one for many
/// refusals.
pub type Explanation = TextBuffer<CAPACITY>;
