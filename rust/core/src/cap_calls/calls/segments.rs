// crates/cap_calls/src/calls/segments.rt without its contracts, by tools/erase: that text is proved, this one is only tested.
//! The call that reports where the segments of a frame are.

use crate::cap_calls::answer::Answer;
use crate::cap_calls::extent::CallExtent;
use crate::cap_calls::found::Found;
use crate::cap_calls::limits::CallLimits;
use crate::cap_calls::over::{over, Call};
use crate::cap_calls::report::CallReport;
use crate::cap_frame::{ByteView, Segments};
use crate::cap_vet::{Demands, Limits};

/// Reports where the segments of the frame that bytes start with are, in order. Each has an extent in
/// `extents`: where its words start, in bytes from the first byte on, and how many bytes they are. Reads
/// only the table, once (encoding: Serialization Over a Stream). Allocates nothing.
///
/// Bytes may follow the frame, whatever the form is. Only `message_words` has an effect, though all
/// limits are checked. The first of these that applies is returned:
/// - why there is no frame; `required` is 0;
/// - [`Answer::BufferTooSmall`], if `extents` has fewer than `required` elements;
/// - [`Answer::Good`]; the first `required` elements are those of the segments, and the others are
///   unchanged.
///
/// With the last two, `required` is how many segments there are, and the report has the extent of the
/// frame. Without [`Answer::Good`], `extents` is unchanged. The report is written whole.
pub fn segments(
    bytes: &[u8],
    limits: &CallLimits,
    extents: &mut [CallExtent],
    required: &mut usize,
    report: &mut CallReport,
) -> Answer {
    let found = over(&Placing, false, bytes, limits, extents);
    *required = found.count;
    *report = found.report;
    found.answer
}

// The call on a message.
struct Placing;

impl Call for Placing {
    type Item = CallExtent;

    #[inline(never)]
    fn on<'b>(
        &self,
        view: &ByteView<'b>,
        _words: u64,
        _limits: Limits,
        _demands: Demands,
        out: &mut [CallExtent],
    ) -> Found {
        let count = view.count() as usize;
        if count > out.len() {
            return found_of_extents(Answer::BufferTooSmall, count);
        }
        write_extents(view, out);
        found_of_extents(Answer::Good, count)
    }
}

// Writes where the segments of a message are in its frame.
fn write_extents<'b>(view: &ByteView<'b>, extents: &mut [CallExtent]) {
    let count = view.count();
    let mut offset = 8 * (u64::from(count) / 2 + 1);
    'segments: for s in 0..count {
        let length = 8 * u64::from(view.len(s));
        extents[s as usize] = CallExtent { offset, length };
        offset += length;
    }
}

// What is found of a message of this many segments.
fn found_of_extents(answer: Answer, count: usize) -> Found {
    Found {
        answer,
        count,
        report: CallReport::none(),
    }
}
