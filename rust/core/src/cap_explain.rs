// crates/cap_explain/src/lib.rt without its contracts, by tools/erase: that text is proved, this one is only tested.
//! The explanation of a refusal: the words that a pointer leads through, with their fields, where it
//! leads, and the reason as a sentence.

mod charge;
mod copied;
mod copy_lines;
mod cycle;
mod earlier;
mod explaining;
mod explanation;
mod forms;
mod landing;
mod lines;
mod numbers;
mod path;
mod rows;
mod sentences;
mod target;
mod words;

pub use cycle::fault_cycle;
pub use earlier::explain_earlier;
pub use explaining::{explain, explain_difference, explain_overlap, explain_overlap_alone};
pub use explanation::Explanation;
pub use numbers::{numbers_of, MessageStart, Numbers};
pub use sentences::difference_sentence;
pub use words::frame_words;
