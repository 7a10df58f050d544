// crates/cap_calls/src/step.rt without its contracts, by tools/erase: that text is proved, this one is only tested.
//! A step of a path, in numbers.

use crate::cap_trace::StepSlot;
use crate::cap_vet::Step;

/// A step of a path, laid out as C has it. A path of such steps is written `/p0/i7` as text.
#[repr(C)]
#[derive(Clone, Copy, Debug, PartialEq, Eq)]
pub struct CallStep {
    /// 0: to a pointer of a struct. 1: to an element of a list of pointers or structs.
    pub kind: u32,
    /// The number of the pointer or the element, from 0.
    pub number: u32,
}

impl StepSlot for CallStep {
    #[inline(always)]
    fn of(step: Step) -> CallStep {
        match step {
            Step::Ptr(number) => CallStep {
                kind: 0,
                number: u32::from(number),
            },
            Step::Item(number) => CallStep { kind: 1, number },
        }
    }
}

impl CallStep {
    // The step with this added to its number. Numbers stop at the highest of their kind, where
    // nothing ever is.
    #[inline(always)]
    pub(crate) fn after(self, more: u64) -> Step {
        if self.kind == 0 {
            Step::Ptr(up_to(self.number, more, 65535) as u16)
        } else {
            Step::Item(up_to(self.number, more, 4294967295))
        }
    }
}

// The sum, or `most` if it is more.
#[inline(always)]
fn up_to(number: u32, more: u64, most: u32) -> u32 {
    if number >= most || more >= u64::from(most - number) {
        most
    } else {
        number + more as u32
    }
}
