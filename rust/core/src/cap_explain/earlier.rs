// crates/cap_explain/src/earlier.rt without its contracts, by tools/erase: that text is proved, this one is only tested.
//! The line of the first pointer that uses a word which the pointer of an overlap uses too.

use crate::cap_buffer::{DIGITS, STEPS};
use crate::cap_explain::explanation::{Explanation, CAPACITY};
use crate::cap_explain::path::{push_shown_path, PATH};
use crate::cap_spec::Step;

/// Appends the line.
fn push_earlier_line(text: &mut Explanation, steps: &[Step], segment: u32, word: u32) {
    text.push_text(b"  first used by ");
    push_shown_path(text, steps);
    text.push_text(b" at ");
    text.push_place(segment, word as u64);
    text.push_text(b"\n");
}

/// Writes the line that explains which pointer is the first to use a word that the pointer of an
/// overlap uses too: the path to it, and its word. A path of more than 24 steps is shortened. What
/// the text held before is removed. Allocates nothing. There is no line without a path, or if it has
/// more than 257 steps.
pub fn explain_earlier(text: &mut Explanation, segment: u32, word: u32, path: Option<&[Step]>) {
    text.clear();
    if let Some(steps) = path {
        if steps.len() <= STEPS {
            push_earlier_line(text, steps, segment, word);
        }
    }
}
