// crates/cap_calls/src/report.rt without its contracts, by tools/erase: that text is proved, this one is only tested.
//! What a call reports beside its answer.

use crate::cap_calls::difference_number::difference_number;
use crate::cap_calls::front::NoFrame;
use crate::cap_difference::Difference;
use crate::cap_frame::FrontFault;
use crate::cap_spec::StrictRefusal;
use crate::cap_vet::Report;

/// What a call reports beside its answer, laid out as C has it. A field that doesn't apply is 0.
#[repr(C)]
#[derive(Clone, Copy, Debug, PartialEq, Eq)]
pub struct CallReport {
    /// Bytes of the frame with its table, also of a refused message; 0 if there is no frame. Of an
    /// input without a table: its bytes. Of separate segments: the bytes of all.
    pub length: u64,
    /// Of bytes that end before the frame does: how many bytes the input needs at least.
    pub input_required: u64,
    /// How many segments, words or trailing bytes the answer is about. Of a charge above the limit:
    /// that limit. Of a first difference: the number of its reason.
    pub detail: u64,
    /// Of an accepted message: the charge of all followings, in words.
    pub charge: u64,
    /// Of an accepted message its pointer words, null ones too. Of a refused one those that were
    /// checked, and of a first difference those up to it.
    pub pointers: u64,
    /// Of an accepted message: its capabilities.
    pub capabilities: u64,
    /// Of an accepted message: the deepest level of an object.
    pub depth: u32,
    /// How many segments the message has, if there is a frame.
    pub segments: u32,
    /// The segment of the pointer that is named: that of the refusal, of the first difference, or of the
    /// first capability.
    pub segment: u32,
    /// That pointer's word in its segment.
    pub word: u32,
    /// How many words the segments have together, if there is a frame.
    pub words: u64,
    /// They are 0.
    pub reserved: [u64; 6],
}

impl CallReport {
    // With nothing in it.
    pub(crate) fn none() -> CallReport {
        CallReport {
            length: 0,
            input_required: 0,
            detail: 0,
            charge: 0,
            pointers: 0,
            capabilities: 0,
            depth: 0,
            segments: 0,
            segment: 0,
            word: 0,
            words: 0,
            reserved: [0; 6],
        }
    }

    // Of bytes without a frame.
    pub(crate) fn of_no_frame(cause: NoFrame) -> CallReport {
        let (input_required, detail) = match cause {
            NoFrame::BadLimits => (0, 0),
            NoFrame::NoMessage => (8, 0),
            NoFrame::Fault(FrontFault::TooManySegments { count }) => (0, count),
            NoFrame::Fault(FrontFault::TooLarge { words }) => (0, words),
            NoFrame::Fault(FrontFault::Truncated { needed }) => (needed, 0),
        };
        CallReport {
            input_required,
            detail,
            ..CallReport::none()
        }
    }

    // Of a message that this many bytes follow, apart from its frame.
    pub(crate) fn of_trailing(bytes: u64) -> CallReport {
        CallReport {
            detail: bytes,
            ..CallReport::none()
        }
    }

    // Of a pointer, if this number of them were checked.
    pub(crate) fn of_place(segment: u32, word: u32, pointers: u64) -> CallReport {
        CallReport {
            pointers,
            segment,
            word,
            ..CallReport::none()
        }
    }

    // Of a message that is refused, apart from its frame.
    pub(crate) fn of_refused(refusal: StrictRefusal) -> CallReport {
        match refusal {
            StrictRefusal::Refused(it) => CallReport::of_place(it.segment, it.word, it.pointers),
            StrictRefusal::ManySegments => CallReport::none(),
            StrictRefusal::Pointer {
                segment,
                word,
                pointers,
                ..
            } => CallReport::of_place(segment, word, pointers),
        }
    }

    // Of a message that is accepted, apart from its frame.
    pub(crate) fn of_accepted(report: Report) -> CallReport {
        let (segment, word) = report.first_cap.unwrap_or((0, 0));
        CallReport {
            charge: report.charge,
            pointers: report.pointers,
            capabilities: report.caps,
            depth: report.depth,
            segment,
            word,
            ..CallReport::none()
        }
    }

    // Of a message that is accepted and isn't canonical, apart from its frame.
    pub(crate) fn of_difference(difference: Difference, report: Report) -> CallReport {
        CallReport {
            detail: difference_number(difference.reason),
            pointers: difference.pointers,
            segment: difference.segment,
            word: difference.word,
            ..CallReport::of_accepted(report)
        }
    }
}
