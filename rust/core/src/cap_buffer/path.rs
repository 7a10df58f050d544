// crates/cap_buffer/src/path.rt without its contracts, by tools/erase: that text is proved, this one is only tested.
//! The text of a path.

use crate::cap_buffer::text_buffer::{TextBuffer, DIGITS, FEW_DIGITS};
use crate::cap_spec::Step;

/// The most steps of a path for which a line has space.
pub const STEPS: usize = 257;

/// The space for the text of one step, in bytes.
pub const STEP: usize = FEW_DIGITS + 2;

impl<const N: usize> TextBuffer<N> {
    /// Appends the text of a step.
    fn push_step(&mut self, step: Step) {
        match step {
            Step::Ptr(index) => self.push_named(b"/p", u64::from(index)),
            Step::Item(index) => self.push_named(b"/i", u64::from(index)),
        }
    }

    /// Appends the texts of steps.
    pub fn push_steps(&mut self, steps: &[Step]) {
        for step in steps {
            self.push_step(*step);
        }
    }

    /// Appends the text of a path.
    pub fn push_path(&mut self, steps: &[Step]) {
        if steps.is_empty() {
            self.push_text(b"/");
        } else {
            self.push_steps(steps);
        }
    }
}
