// crates/cap_explain/src/path.rt without its contracts, by tools/erase: that text is proved, this one is only tested.
//! The line of a path.

use crate::cap_buffer::{DIGITS, STEP, STEPS};
use crate::cap_explain::explanation::{Explanation, CAPACITY};
use crate::cap_spec::Step;

/// The most steps of a path that is shown whole.
const WHOLE: usize = 24;

/// How many steps of a longer path are shown at each end.
const ENDS: usize = 8;

/// The space for the line of a path without its steps.
const HEAD: usize = 10;

/// The space for the line of a path.
pub(crate) const PATH: usize = HEAD + STEP * STEPS;

/// Appends the text of a long path: its first and last steps, and how many are between.
fn push_shortened(text: &mut Explanation, steps: &[Step]) {
    let rest = steps.len() - ENDS;
    text.push_steps(&steps[..ENDS]);
    text.push_named(b"/.. ", (rest - ENDS) as u64);
    text.push_text(b" steps ..");
    text.push_steps(&steps[rest..]);
}

/// Appends the text of a path, shortened if it has more than 24 steps.
pub(crate) fn push_shown_path(text: &mut Explanation, steps: &[Step]) {
    if steps.len() > WHOLE {
        push_shortened(text, steps);
    } else {
        text.push_path(steps);
    }
}

/// Appends the line of a path.
fn push_path_line(text: &mut Explanation, steps: &[Step]) {
    text.push_text(b"  path ");
    push_shown_path(text, steps);
    text.push_text(b"\n");
}

/// Appends the line of a path, if there is a path of at most 257 steps.
pub(crate) fn push_path_lines(text: &mut Explanation, path: Option<&[Step]>) {
    if let Some(steps) = path {
        if steps.len() <= STEPS {
            push_path_line(text, steps);
        }
    }
}
