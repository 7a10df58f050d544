// crates/cap_trace/src/tracing.rt without its contracts, by tools/erase: that text is proved, this one is only tested.
//! The path of a pointer word, written to a buffer.

use crate::cap_frame::Segments;
use crate::cap_trace::branch::Branch;
use crate::cap_trace::seeking::{seek, BranchStack};
use crate::cap_trace::slot::StepSlot;
use crate::cap_walk::Limits;

/// Writes the path to the pointer word of this number in preorder, where the root word is number 1,
/// and returns how many steps it has. These are at most as many as the depth limit has levels.
/// `number` may be the `pointers` of a refusal, of a strict refusal or of an overlap: it is then the
/// path to the pointer that is named. If it has more steps than the buffer, the buffer is unchanged.
///
/// `None` if the message has no such word, or if a pointer before it can't be followed or leads past
/// the depth limit. The buffer is then unchanged. The word limit has no effect. Allocates nothing.
pub fn path_of_pointer<M: Segments, S: StepSlot>(
    message: &M,
    limits: Limits,
    number: u64,
    steps: &mut [S],
) -> Option<usize> {
    traced(message, limits.depth(), number, steps)
}

// The same by the depth limit alone. Its stack of branches is no part of a caller's frame.
#[inline(never)]
fn traced<M: Segments, S: StepSlot>(
    message: &M,
    depth: u32,
    number: u64,
    steps: &mut [S],
) -> Option<usize> {
    let mut branches = BranchStack::new();
    match seek(message, depth, number, &mut branches) {
        Some(_) => Some(write_path(branches.as_slice(), steps)),
        None => None,
    }
}

// Writes the path over these branches to the start of the buffer, if it fits. Gives how many steps it has.
fn write_path<S: StepSlot>(branches: &[Branch], steps: &mut [S]) -> usize {
    let count = branches.len();
    if count > steps.len() {
        return count;
    }
    'steps: for at in 0..count {
        steps[at] = S::of(branches[at].step());
    }
    count
}
