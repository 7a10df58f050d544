// crates/cap_calls/src/calls/first_difference.rt without its contracts, by tools/erase: that text is proved, this one is only tested.
//! The call that says why a message isn't canonical.

use crate::cap_calls::answer::Answer;
use crate::cap_calls::found::Found;
use crate::cap_calls::input::over_input;
use crate::cap_calls::limits::CallLimits;
use crate::cap_calls::over::Call;
use crate::cap_calls::report::CallReport;
use crate::cap_canon::check_with;
use crate::cap_difference::{first_difference as difference_of, Difference};
use crate::cap_frame::ByteView;
use crate::cap_vet::{Demands, Limits, Report};

/// Finds the first pointer in preorder at which the message that bytes are isn't as its canonical copy
/// has it, and the reason (encoding: Canonicalization). Allocates nothing, and makes no copy.
///
/// It returns what [`crate::check_canonical`] does, and reports the same but with
/// [`Answer::NotCanonical`]. Then the report has the segment, the word and the number of that pointer,
/// and in `detail` the number of the reason. For reasons that are about no pointer see [`Difference`]. The
/// charge, the capabilities and the depth are those of the message, as there. The report is written whole.
pub fn first_difference(bytes: &[u8], limits: &CallLimits, report: &mut CallReport) -> Answer {
    over_input(&Comparing, true, bytes, limits, &mut [], report).0
}

// The call on a message.
struct Comparing;

impl Call for Comparing {
    type Item = u8;

    // Inlined: a small message pays for a call more than for the check.
    #[inline(always)]
    fn on<'b>(
        &self,
        view: &ByteView<'b>,
        _words: u64,
        limits: Limits,
        demands: Demands,
        _out: &mut [u8],
    ) -> Found {
        match check_with(view, limits, demands) {
            Ok((vetted, canonical)) => {
                let report = vetted.report();
                if canonical {
                    return Found::accepted(Answer::Good, 0, report);
                }
                match difference_of(&vetted) {
                    Some(difference) => found_of_difference(difference, report),
                    None => Found::accepted(Answer::Good, 0, report),
                }
            }
            Err(refusal) => Found::refused(refusal),
        }
    }
}

// What is found of an accepted message with this first difference.
fn found_of_difference(difference: Difference, report: Report) -> Found {
    Found {
        answer: Answer::NotCanonical,
        count: 0,
        report: CallReport::of_difference(difference, report),
    }
}
