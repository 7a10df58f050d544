// crates/cap_calls/src/calls/canonical.rt without its contracts, by tools/erase: that text is proved, this one is only tested.
//! The call that writes a canonical copy between buffers.

use crate::cap_calls::answer::Answer;
use crate::cap_calls::found::Found;
use crate::cap_calls::input::over_input;
use crate::cap_calls::limits::CallLimits;
use crate::cap_calls::one_slice::OneSlice;
use crate::cap_calls::over::Call;
use crate::cap_calls::report::CallReport;
use crate::cap_canon::{canonical_from, canonical_into, BufferFault};
use crate::cap_frame::ByteView;
use crate::cap_vet::{vet_with, Demands, Limits, Report};

/// Writes the canonical copy of the message that bytes are to the start of `out`, as the bytes of
/// its words alone, without a table (encoding: Canonicalization, 64-bit Words). The form
/// is as for [`crate::vet`]. Allocates nothing.
///
/// The first of these that applies is returned:
/// - the answers of [`crate::vet`], if the message isn't accepted; `required` is 0;
/// - [`Answer::HasCapability`], if a capability is reached, so that there is no copy; the report
///   names the first one; `required` is 0;
/// - [`Answer::BufferTooSmall`], if `out` is too small; `required` is the length of the copy in
///   bytes;
/// - [`Answer::Good`], and `required` is how many bytes were written.
///
/// Without [`Answer::Good`], `out` is unchanged; with it, the bytes after the copy are. The report
/// is written whole.
pub fn canonical(
    bytes: &[u8],
    limits: &CallLimits,
    out: &mut [u8],
    required: &mut usize,
    report: &mut CallReport,
) -> Answer {
    let whole = !limits.allows_trailing();
    let (answer, count) = over_input(&Copying, whole, bytes, limits, out, report);
    *required = count;
    answer
}

// The call on a message.
struct Copying;

impl Call for Copying {
    type Item = u8;

    // Inlined: a small message doesn't pay for copies of its report.
    #[inline(always)]
    fn on<'b>(
        &self,
        view: &ByteView<'b>,
        _words: u64,
        limits: Limits,
        demands: Demands,
        out: &mut [u8],
    ) -> Found {
        match vet_with(view, limits, demands) {
            Ok(vetted) => found_of_size(canonical_into(&vetted, out), vetted.report()),
            Err(refusal) => Found::refused(refusal),
        }
    }

    // The copy is made from the slice: it then looks up neither the start nor the size of a segment.
    // The view is vetted, by the walk that other calls have too.
    #[inline(always)]
    fn on_one<'b>(
        &self,
        view: &ByteView<'b>,
        _words: u64,
        limits: Limits,
        demands: Demands,
        out: &mut [u8],
    ) -> Found {
        match vet_with(view, limits, demands) {
            Ok(vetted) => {
                let slice = OneSlice::of(view);
                found_of_size(canonical_from(&vetted, &slice, out), vetted.report())
            }
            Err(fault) => Found::refused(fault),
        }
    }
}

// What is found of an accepted message, by the result of its copy.
fn found_of_size(written: Result<usize, BufferFault>, report: Report) -> Found {
    match written {
        Ok(count) => Found::accepted(Answer::Good, count, report),
        Err(BufferFault::BufferTooSmall { needed }) => {
            Found::accepted(Answer::BufferTooSmall, needed, report)
        }
        Err(BufferFault::HasCapability { .. }) => Found::accepted(Answer::HasCapability, 0, report),
    }
}
