// crates/cap_calls/src/calls/frame.rt without its contracts, by tools/erase: that text is proved, this one is only tested.
//! The call that reports the length of a frame.

use crate::cap_calls::answer::Answer;
use crate::cap_calls::found::Found;
use crate::cap_calls::front::front;
use crate::cap_calls::limits::CallLimits;
use crate::cap_calls::report::CallReport;

/// Reports the length in bytes of the frame that bytes start with, and how many segments its
/// message has. Reads only the table (encoding: Serialization Over a Stream).
///
/// It returns [`Answer::Good`], or why there is no frame within the limits. The report is written
/// whole.
pub fn frame(bytes: &[u8], limits: &CallLimits, report: &mut CallReport) -> Answer {
    let found = extent(bytes, limits);
    *report = found.report;
    found.answer
}

// What is found of the frame.
fn extent(bytes: &[u8], limits: &CallLimits) -> Found {
    match front(bytes, limits) {
        Ok((framed, _)) => Found {
            answer: Answer::Good,
            count: 0,
            report: CallReport::none(),
        }
        .framed(&framed, limits),
        Err(cause) => Found::without(cause),
    }
}
