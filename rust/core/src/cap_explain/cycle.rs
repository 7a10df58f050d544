// crates/cap_explain/src/cycle.rt without its contracts, by tools/erase: that text is proved, this one is only tested.
//! The cycle on the path to a pointer that is refused for a limit.

use crate::cap_frame::Segments;
use crate::cap_spec::{Reason, Refusal, StrictRefusal};
use crate::cap_trace::{last_cycle, Cycle};
use crate::cap_walk::Limits;

/// The last cycle on the path to the refused pointer, as [`last_cycle`] gives it. `None` if the path
/// reaches each pointer word once, or if the reason is no limit. The word limit of `limits` has no
/// effect. It looks at pointer words only for a limit. Allocates nothing.
pub fn fault_cycle<M: Segments>(
    message: &M,
    refusal: &StrictRefusal,
    limits: Limits,
) -> Option<Cycle> {
    match refusal {
        StrictRefusal::Refused(refusal) => refused_cycle(message, refusal, limits),
        StrictRefusal::ManySegments => None,
        StrictRefusal::Pointer { .. } => None,
    }
}

// The same of a refusal by `vet`.
fn refused_cycle<M: Segments>(message: &M, refusal: &Refusal, limits: Limits) -> Option<Cycle> {
    if is_limit(refusal.reason) {
        last_cycle(message, limits, refusal.pointers)
    } else {
        None
    }
}

// Whether a limit is the reason.
fn is_limit(reason: Reason) -> bool {
    match reason {
        Reason::DepthLimit => true,
        Reason::WordLimit => true,
        _ => false,
    }
}
