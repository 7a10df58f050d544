// crates/cap_calls/src/calls/vet.rt without its contracts, by tools/erase: that text is proved, this one is only tested.
//! The call that vets a message.

use crate::cap_calls::answer::Answer;
use crate::cap_calls::found::Found;
use crate::cap_calls::input::over_input;
use crate::cap_calls::limits::CallLimits;
use crate::cap_calls::one_slice::OneSlice;
use crate::cap_calls::over::Call;
use crate::cap_calls::report::CallReport;
use crate::cap_frame::{ByteView, Segments};
use crate::cap_vet::{vet_with, Demands, Limits};

/// Vets the message that bytes are, within limits. By their form the bytes may start with it, and
/// those after it are never looked at. Or they are the words of its one segment.
/// Allocates nothing (encoding: Security Considerations).
///
/// It returns [`Answer::Good`] if the message is accepted: its root denotes a finite tree within
/// the limits. It is also strict, or flag 1 is set. Its charge is at most 4096 words above the
/// words of its segments, or flag 2 is set.
///
/// Otherwise it returns the first of these that applies: why there is no frame,
/// [`Answer::Trailing`], the reason of a refusal, [`Answer::ManySegments`], the form of the first
/// pointer that isn't strict. The report is written whole.
pub fn vet(bytes: &[u8], limits: &CallLimits, report: &mut CallReport) -> Answer {
    let whole = !limits.allows_trailing();
    over_input(&Vetting, whole, bytes, limits, &mut [], report).0
}

// The call on a message.
struct Vetting;

impl Call for Vetting {
    type Item = u8;

    #[inline(never)]
    fn on<'b>(
        &self,
        view: &ByteView<'b>,
        _words: u64,
        limits: Limits,
        demands: Demands,
        _out: &mut [u8],
    ) -> Found {
        judged(view, limits, demands)
    }

    // A walk of its own, which is inlined. Its numbers stay in registers up to the report, and a
    // small message doesn't pay for copies of them.
    #[inline(always)]
    fn on_one<'b>(
        &self,
        view: &ByteView<'b>,
        _words: u64,
        limits: Limits,
        demands: Demands,
        _out: &mut [u8],
    ) -> Found {
        judged(&OneSlice::of(view), limits, demands)
    }
}

/// What is found of a message.
#[inline(always)]
pub(crate) fn judged<M: Segments>(message: &M, limits: Limits, demands: Demands) -> Found {
    match vet_with(message, limits, demands) {
        Ok(vetted) => Found::accepted(Answer::Good, 0, vetted.report()),
        Err(refusal) => Found::refused(refusal),
    }
}
