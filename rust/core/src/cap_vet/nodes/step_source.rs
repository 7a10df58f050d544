// crates/cap_vet/src/nodes/step_source.rt without its contracts, by tools/erase: that text is proved, this one is only tested.
//! Where the steps of a path come from.

use crate::cap_path::PathSteps;
use crate::cap_spec::Step;

/// A source of the steps of a path, such as its text.
pub trait StepSource {
    /// The next step of the path, and `None` after the last one.
    fn next_step(&mut self) -> Option<Step>;
}

impl<'t> StepSource for PathSteps<'t> {
    #[inline(always)]
    fn next_step(&mut self) -> Option<Step> {
        self.next()
    }
}
