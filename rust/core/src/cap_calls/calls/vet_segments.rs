// crates/cap_calls/src/calls/vet_segments.rt without its contracts, by tools/erase: that text is proved, this one is only tested.
//! The call that vets a message whose segments are separate.

use crate::cap_calls::answer::Answer;
use crate::cap_calls::calls::vet::judged;
use crate::cap_calls::found::Found;
use crate::cap_calls::front::{checked, NoFrame};
use crate::cap_calls::limits::CallLimits;
use crate::cap_calls::report::CallReport;
use crate::cap_calls::slices::{SliceMessage, SlicesFault};
use crate::cap_frame::Segments;

/// Vets the message whose segments are these slices, as [`crate::vet`] vets its frame. Nothing is
/// copied. Allocates nothing (encoding: Messages, Security Considerations).
///
/// Before the answers about pointers, the first of these that applies is returned:
/// - [`Answer::BadLimits`];
/// - [`Answer::NoMessage`], if there is no segment;
/// - [`Answer::TooManySegments`], if there are more than 512; the report has their number;
/// - [`Answer::BadSegment`], if the length of a segment is no multiple of 8; the report has the
///   number of the first;
/// - [`Answer::TooLarge`], if they have more words than the limit; the report has how many, at most
///   2^64 - 1.
///
/// The report is written whole, and its length is the bytes of all segments.
pub fn vet_segments(segments: &[&[u8]], limits: &CallLimits, report: &mut CallReport) -> Answer {
    let found = found_of(segments, limits);
    *report = found.report;
    found.answer
}

// What is found of them.
fn found_of(segments: &[&[u8]], limits: &CallLimits) -> Found {
    let (size, walk) = if let Some((size, walk)) = checked(limits) {
        (size, walk)
    } else {
        return Found::without(NoFrame::BadLimits);
    };
    match SliceMessage::new(segments, size) {
        Ok(message) => {
            let words = message.words();
            let limit = limits.charge_limit(words);
            judged(&message, walk, limits.demands()).extent(
                8 * words as usize,
                message.count(),
                words,
                limit,
            )
        }
        Err(fault) => without_message(fault),
    }
}

// Of segments that are no message.
fn without_message(fault: SlicesFault) -> Found {
    let (answer, detail) = match fault {
        SlicesFault::NoSegments => (Answer::NoMessage, 0),
        SlicesFault::TooManySegments { count } => (Answer::TooManySegments, count),
        SlicesFault::BadSegment { segment } => (Answer::BadSegment, u64::from(segment)),
        SlicesFault::TooLarge { words } => (Answer::TooLarge, words),
    };
    Found {
        answer,
        count: 0,
        report: CallReport {
            detail,
            ..CallReport::none()
        },
    }
}
