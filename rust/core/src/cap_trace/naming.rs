// crates/cap_trace/src/naming.rt without its contracts, by tools/erase: that text is proved, this one is only tested.
//! The path to the pointer that a refusal or an overlap names, with a buffer for its steps.

use crate::cap_frame::Segments;
use crate::cap_spec::{Step, StrictRefusal};
use crate::cap_trace::earlier::{earlier_pointer, EarlierPointer};
use crate::cap_trace::seeking::STEPS;
use crate::cap_trace::tracing::path_of_pointer;
use crate::cap_walk::Limits;

/// The path to the pointer that a refusal or an overlap names, if it names one. A caller may keep
/// one for many messages.
pub struct NamedPath {
    steps: [Step; STEPS],
    count: Option<usize>,
}

impl NamedPath {
    /// No path. Allocates nothing.
    #[inline(always)]
    pub fn new() -> Self {
        NamedPath {
            steps: [Step::Ptr(0); STEPS],
            count: None,
        }
    }

    /// Its steps, if there is a path.
    pub fn steps(&self) -> Option<&[Step]> {
        match self.count {
            Some(count) => Some(&self.steps[..count]),
            None => None,
        }
    }

    /// Finds the path to the pointer word of this number in preorder, as [`path_of_pointer`] does.
    pub fn find<M: Segments>(&mut self, message: &M, limits: Limits, number: u64) {
        let count = path_of_pointer(message, limits, number, &mut self.steps);
        self.count = count;
    }

    /// Finds the first pointer that uses a word which the pointer word of this number uses too, as
    /// [`earlier_pointer`] does, and the path to it. There is no path if there is no such pointer.
    pub fn find_earlier<M: Segments>(
        &mut self,
        message: &M,
        limits: Limits,
        number: u64,
    ) -> Option<EarlierPointer> {
        match earlier_pointer(message, limits, number) {
            Some(earlier) => {
                self.find(message, limits, earlier.pointers);
                Some(earlier)
            }
            None => {
                self.count = None;
                None
            }
        }
    }

    /// Finds the path to the pointer that the refusal of a message within these limits names. The word
    /// limit has no effect.
    pub fn find_refused<M: Segments>(
        &mut self,
        message: &M,
        limits: Limits,
        refusal: &StrictRefusal,
    ) {
        self.find(message, limits, number_of(refusal));
    }
}

// The number of the pointer that is named, and 0 if none is.
fn number_of(refusal: &StrictRefusal) -> u64 {
    match refusal {
        StrictRefusal::Refused(refusal) => refusal.pointers,
        StrictRefusal::ManySegments => 0,
        StrictRefusal::Pointer { pointers, .. } => *pointers,
    }
}
