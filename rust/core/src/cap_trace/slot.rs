// crates/cap_trace/src/slot.rt without its contracts, by tools/erase: that text is proved, this one is only tested.
//! A slot of a buffer, for one step of a path.

use crate::cap_spec::Step;

/// A slot of a buffer, which holds one step of a path.
pub trait StepSlot: Copy {
    /// The slot with this step.
    fn of(step: Step) -> Self;
}

impl StepSlot for Step {
    #[inline(always)]
    fn of(step: Step) -> Step {
        step
    }
}
