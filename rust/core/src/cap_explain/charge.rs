// crates/cap_explain/src/charge.rt without its contracts, by tools/erase: that text is proved, this one is only tested.
//! The charge of a message up to the pointer at which it passes the word limit.

use crate::cap_frame::Segments;
use crate::cap_spec::{Reason, Refusal, StrictRefusal};
use crate::cap_walk::{charge_up_to, Limits};

/// The charge up to the pointer that this refusal of a message within limits names, with that
/// pointer and its target, if the word limit is passed there. `None` if another reason applies. It
/// walks only for the word limit. Allocates nothing.
pub(crate) fn refusal_charge<M: Segments>(
    message: &M,
    refusal: &StrictRefusal,
    limits: Limits,
) -> Option<u64> {
    match refusal {
        StrictRefusal::Refused(refusal) => charge_of(message, refusal, limits),
        StrictRefusal::ManySegments => None,
        StrictRefusal::Pointer { .. } => None,
    }
}

// The same of a refusal by `vet`.
fn charge_of<M: Segments>(message: &M, refusal: &Refusal, limits: Limits) -> Option<u64> {
    match refusal.reason {
        Reason::WordLimit => charge_up_to(message, limits),
        _ => None,
    }
}
