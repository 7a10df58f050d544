// crates/cap_calls/src/calls/check_canonical.rt without its contracts, by tools/erase: that text is proved, this one is only tested.
//! The calls that check whether a message is canonical.

use crate::cap_calls::answer::Answer;
use crate::cap_calls::found::Found;
use crate::cap_calls::input::over_input;
use crate::cap_calls::limits::CallLimits;
use crate::cap_calls::over::Call;
use crate::cap_calls::report::CallReport;
use crate::cap_canon::check_with;
use crate::cap_frame::ByteView;
use crate::cap_vet::{Demands, Limits};

/// Whether the message that bytes are has one segment, and its words are its own canonical copy
/// (encoding: Canonicalization). By their form they are the words of that segment, without a
/// table. Allocates nothing, and makes no copy.
///
/// It returns [`Answer::Good`] if so, and [`Answer::NotCanonical`] for another accepted message,
/// also for one with a capability. Otherwise it returns what [`crate::vet`] does of a whole message:
/// bytes after it always give [`Answer::Trailing`]. The report is written whole.
pub fn check_canonical(bytes: &[u8], limits: &CallLimits, report: &mut CallReport) -> Answer {
    over_input(&Checking, true, bytes, limits, &mut [], report).0
}

/// Whether words are a canonical message of one segment, without a table, as [`crate::canonical`]
/// writes them (encoding: Canonicalization). The form and the flag 2 have no effect: what they say or
/// allow is known of such words. They may be amplified, and have one word more than the limit of the
/// charge. So what was written passes with the same limits. Allocates nothing, and makes no copy.
///
/// It returns [`Answer::Good`] if so, and otherwise what [`check_canonical`] does for such words. The
/// report is written whole.
pub fn check_canonical_words(words: &[u8], limits: &CallLimits, report: &mut CallReport) -> Answer {
    check_canonical(words, &limits.of_copy(), report)
}

// The call on a message.
struct Checking;

impl Call for Checking {
    type Item = u8;

    // Inlined: a small message pays for a call more than for the check.
    #[inline(always)]
    fn on<'b>(
        &self,
        view: &ByteView<'b>,
        _words: u64,
        limits: Limits,
        demands: Demands,
        _out: &mut [u8],
    ) -> Found {
        match check_with(view, limits, demands) {
            Ok((vetted, canonical)) => {
                let report = vetted.report();
                if canonical {
                    Found::accepted(Answer::Good, 0, report)
                } else {
                    Found::accepted(Answer::NotCanonical, 0, report)
                }
            }
            Err(refusal) => Found::refused(refusal),
        }
    }
}
