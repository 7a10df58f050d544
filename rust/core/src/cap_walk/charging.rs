// crates/cap_walk/src/charging.rt without its contracts, by tools/erase: that text is proved, this one is only tested.
//! The charge of a message up to the pointer at which it passes the word limit.

use crate::cap_frame::Segments;
use crate::cap_ptr::{follow, Place};
use crate::cap_spec::{Reason, Refusal};
use crate::cap_walk::limits::Limits;
use crate::cap_walk::report::Report;
use crate::cap_walk::turn::{Stopped, Turn};
use crate::cap_walk::walking::walk;
use core::convert::Infallible;

/// A walk that sums what following its pointer words costs.
struct ChargeSum {
    charge: u128,
}

impl Turn for ChargeSum {
    type Stop = Infallible;

    #[inline(always)]
    fn after<M: Segments>(
        &mut self,
        _message: &M,
        _s: u32,
        _w: u32,
        _object: Place,
        _may_be_lax: bool,
        _pointers: u64,
        cost: u64,
    ) -> Result<(), Infallible> {
        self.charge += u128::from(cost);
        Ok(())
    }
}

// A message is refused at the word limit.
fn is_past_limit(reason: Reason) -> bool {
    match reason {
        Reason::WordLimit => true,
        _ => false,
    }
}

// The charge of the pointers before the one that a refusal names, and what that one costs.
fn with_pointer<M: Segments>(
    message: &M,
    limits: &Limits,
    charge: u128,
    refusal: &Refusal,
) -> Option<u64> {
    if is_past_limit(refusal.reason) {
        match follow(message, refusal.segment, refusal.word) {
            Ok(followed) => Some(charge as u64 + followed.charge()),
            Err(_) => None,
        }
    } else {
        None
    }
}

/// The charge up to the pointer at which the message passes the word limit, with that pointer and
/// its target. `None` if the message is accepted within the limits, or is refused for another
/// reason. Walks once. Allocates nothing.
pub fn charge_up_to<M: Segments>(message: &M, limits: Limits) -> Option<u64> {
    let mut sum = ChargeSum { charge: 0 };
    let mut report = Report::default();
    match walk(message, &limits, &mut sum, &mut report) {
        Ok(()) => None,
        Err(Stopped::Refused(refusal)) => with_pointer(message, &limits, sum.charge, &refusal),
        Err(Stopped::ByTurn(never)) => match never {},
    }
}
