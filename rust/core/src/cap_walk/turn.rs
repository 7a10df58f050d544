// crates/cap_walk/src/turn.rt without its contracts, by tools/erase: that text is proved, this one is only tested.
//! One pointer word of a walk: what it leads to is counted, and what a turn does there.

use crate::cap_frame::Segments;
use crate::cap_ptr::Place;
use crate::cap_spec::Refusal;
use crate::cap_walk::limits::Limits;
use crate::cap_walk::looking::{look, Looked};
use crate::cap_walk::pointer_run::PointerRun;
use crate::cap_walk::report::Report;

/// Why a walk stops.
pub enum Stopped<S> {
    /// At the first fault.
    Refused(Refusal),
    /// Where the turn stops it.
    ByTurn(S),
}

/// What a walk does after it has looked at a pointer word, beside counting it. It isn't called at
/// null words that the walk skips.
pub trait Turn {
    /// Why it stops a walk.
    type Stop;

    /// The turn at this pointer word, which can be followed, and costs `cost` words. It is number
    /// `pointers` of those looked at, and `object` has the words of its object, none for null and a
    /// capability. If `may_be_lax` is false, common readers don't reject the pointer.
    fn after<M: Segments>(
        &mut self,
        message: &M,
        s: u32,
        w: u32,
        object: Place,
        may_be_lax: bool,
        pointers: u64,
        cost: u64,
    ) -> Result<(), Self::Stop>;
}

/// A turn that any walk may begin with.
pub trait FirstTurn: Turn + Sized {
    /// The turn before the first pointer word of this message, or why it stops a walk there.
    fn begin<M: Segments>(message: &M) -> Result<Self, Self::Stop>;
}

/// Looks at the next pointer word. The error is the first fault.
#[inline(always)]
pub(crate) fn visit<M: Segments>(
    message: &M,
    limits: &Limits,
    report: &Report,
    s: u32,
    w: u32,
    level: u32,
) -> Result<Looked, Refusal> {
    match look(message, limits, report.charge, s, w, level) {
        Err(reason) => Err(Refusal {
            segment: s,
            word: w,
            reason,
            pointers: report.pointers + 1,
        }),
        Ok(looked) => Ok(looked),
    }
}

// Counts a pointer word, and gives the run of its object's pointers.
#[inline(always)]
pub(crate) fn add(report: &mut Report, s: u32, w: u32, looked: Looked) -> Option<PointerRun> {
    report.pointers += 1;
    match looked {
        Looked::Null(cost) => {
            report.charge += cost;
            None
        }
        Looked::Cap(cost) => {
            report.charge += cost;
            report.caps += 1;
            if report.first_cap.is_none() {
                report.first_cap = Some((s, w));
            }
            None
        }
        Looked::Object(cost, deepest, below, _) => {
            report.charge += cost;
            if report.depth < deepest {
                report.depth = deepest;
            }
            below
        }
    }
}
