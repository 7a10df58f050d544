// crates/cap_calls/src/found.rt without its contracts, by tools/erase: that text is proved, this one is only tested.
//! What a call finds.

use crate::cap_calls::answer::Answer;
use crate::cap_calls::front::NoFrame;
use crate::cap_calls::limits::CallLimits;
use crate::cap_calls::report::CallReport;
use crate::cap_frame::Framed;
use crate::cap_spec::StrictRefusal;
use crate::cap_vet::Report;

/// What a call finds: its answer, how many bytes or numbers its output takes, and what it
/// reports.
#[derive(Clone, Copy)]
pub(crate) struct Found {
    pub(crate) answer: Answer,
    pub(crate) count: usize,
    pub(crate) report: CallReport,
}

impl Found {
    // Of bytes without a frame.
    pub(crate) fn without(cause: NoFrame) -> Found {
        Found {
            answer: Answer::of_cause(cause),
            count: 0,
            report: CallReport::of_no_frame(cause),
        }
    }

    // Of a message that this many bytes follow.
    pub(crate) fn trailing(bytes: u64) -> Found {
        Found {
            answer: Answer::Trailing,
            count: 0,
            report: CallReport::of_trailing(bytes),
        }
    }

    // Of a message that is refused.
    pub(crate) fn refused(refusal: StrictRefusal) -> Found {
        Found {
            answer: Answer::of_refusal(refusal),
            count: 0,
            report: CallReport::of_refused(refusal),
        }
    }

    // Of a message that is accepted, with this answer and number.
    pub(crate) fn accepted(answer: Answer, count: usize, report: Report) -> Found {
        Found {
            answer,
            count,
            report: CallReport::of_accepted(report),
        }
    }

    // The same with the extent of the frame.
    #[inline]
    pub(crate) fn framed(self, framed: &Framed<'_>, limits: &CallLimits) -> Found {
        let words = framed.words();
        let limit = limits.charge_limit(words);
        self.extent(framed.length(), framed.count(), words, limit)
    }

    // The same with the length of the input in bytes, its segments and their words. A charge was above
    // this limit.
    #[inline(always)]
    pub(crate) fn extent(self, bytes: usize, segments: u32, words: u64, limit: u64) -> Found {
        let detail = match self.answer {
            Answer::WordLimit => limit,
            _ => self.report.detail,
        };
        Found {
            report: CallReport {
                length: bytes as u64,
                detail,
                segments,
                words,
                ..self.report
            },
            ..self
        }
    }
}
