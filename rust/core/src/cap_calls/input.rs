// crates/cap_calls/src/input.rt without its contracts, by tools/erase: that text is proved, this one is only tested.
//! A call over its input: a frame, or the words of one segment.

use crate::cap_calls::answer::Answer;
use crate::cap_calls::found::Found;
use crate::cap_calls::front::NoFrame;
use crate::cap_calls::limits::CallLimits;
use crate::cap_calls::over::{over, Call};
use crate::cap_calls::report::CallReport;
use crate::cap_frame::{ByteView, FrontFault, Segments, MOST_WORDS};
use crate::cap_vet::Limits;

/// What a call finds of its input: of the message that bytes start with, or by their form of the
/// one segment whose words they are. Without that form, no bytes may follow the message if they
/// have to be the message as a `whole`. The report is written, and the answer and the count are
/// returned.
// The report is written in each branch, since a small message would pay for a copy of it.
#[inline(always)]
pub(crate) fn over_input<C: Call>(
    call: &C,
    whole: bool,
    bytes: &[u8],
    limits: &CallLimits,
    out: &mut [C::Item],
    report: &mut CallReport,
) -> (Answer, usize) {
    if limits.has_no_table() {
        let found = over_words(call, bytes, limits, out);
        *report = found.report;
        return (found.answer, found.count);
    }
    let found = over(call, whole, bytes, limits, out);
    *report = found.report;
    (found.answer, found.count)
}

// The same of words.
#[cold]
#[inline(never)]
fn over_words<C: Call>(call: &C, bytes: &[u8], limits: &CallLimits, out: &mut [C::Item]) -> Found {
    let mut size = [0];
    match whole_segment(bytes, limits, &mut size) {
        Ok((view, walk)) => {
            let words = (bytes.len() / 8) as u64;
            let limit = limits.charge_limit(words);
            call.on(&view, words, walk, limits.demands(), out)
                .extent(bytes.len(), 1, words, limit)
        }
        Err(cause) => Found::without(cause),
    }
}

// The message of one segment whose words the bytes are, with the limits of a walk through it. Its
// size in words is put into `size`.
fn whole_segment<'b>(
    bytes: &'b [u8],
    limits: &CallLimits,
    size: &'b mut [u32; 1],
) -> Result<(ByteView<'b>, Limits), NoFrame> {
    if !limits.has_word_flags() || limits.message_words > MOST_WORDS {
        return Err(NoFrame::BadLimits);
    }
    let walk = if let Some(walk) = Limits::new(limits.charge, limits.depth) {
        walk
    } else {
        return Err(NoFrame::BadLimits);
    };
    if bytes.is_empty() {
        return Err(NoFrame::NoMessage);
    }
    let words = (bytes.len() - 1) as u64 / 8 + 1;
    if words > limits.message_words {
        return Err(NoFrame::Fault(FrontFault::TooLarge { words }));
    }
    match ByteView::of_words(bytes, size) {
        Some(view) => Ok((view, walk)),
        None => Err(NoFrame::Fault(FrontFault::Truncated { needed: 8 * words })),
    }
}
