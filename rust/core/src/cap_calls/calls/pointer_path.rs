// crates/cap_calls/src/calls/pointer_path.rt without its contracts, by tools/erase: that text is proved, this one is only tested.
//! The call for the path to a pointer word.

use crate::cap_calls::answer::Answer;
use crate::cap_calls::calls::get::path_answer;
use crate::cap_calls::found::Found;
use crate::cap_calls::input::over_input;
use crate::cap_calls::limits::CallLimits;
use crate::cap_calls::one_slice::OneSlice;
use crate::cap_calls::over::Call;
use crate::cap_calls::report::CallReport;
use crate::cap_calls::step::CallStep;
use crate::cap_frame::{ByteView, Segments};
use crate::cap_trace::path_of_pointer;
use crate::cap_vet::{Demands, Limits};

/// Finds the path to a pointer word of the message that bytes are: the word of this number in
/// preorder, where that of the root has number 1. The number that a report has as `pointers` is
/// that of the pointer that it names. `required` is how many steps the path has, and 0 without a
/// path. The pointers before the word in preorder are followed, and the depth limit applies to them.
/// Allocates nothing.
///
/// The first of these that applies is returned:
/// - why there is no frame, or [`Answer::Trailing`], as for [`crate::vet`];
/// - [`Answer::NoNode`]: the message has no such word. Or a pointer before it can't be followed, or
///   leads past the depth limit. Or the number is above the limit of the charge and 1, since no
///   verdict counts as many;
/// - [`Answer::BufferTooSmall`], if `steps` has fewer than `required` steps;
/// - [`Answer::Good`]; the path is the first `required` steps, and the others are unchanged.
///
/// Without [`Answer::Good`] all steps are unchanged. The report is written whole.
pub fn pointer_path(
    bytes: &[u8],
    limits: &CallLimits,
    number: u64,
    steps: &mut [CallStep],
    required: &mut usize,
    report: &mut CallReport,
) -> Answer {
    let whole = !limits.allows_trailing();
    let (answer, count) = over_input(&Tracing { number }, whole, bytes, limits, steps, report);
    *required = count;
    answer
}

// The call on a message, for the word of this number.
#[derive(Clone, Copy)]
struct Tracing {
    number: u64,
}

impl Call for Tracing {
    type Item = CallStep;

    #[inline(never)]
    fn on<'b>(
        &self,
        view: &ByteView<'b>,
        _words: u64,
        limits: Limits,
        _demands: Demands,
        out: &mut [CallStep],
    ) -> Found {
        traced(view, limits, self.number, out)
    }

    // A search of its own, which looks up neither starts nor sizes of segments.
    #[inline(never)]
    fn on_one<'b>(
        &self,
        view: &ByteView<'b>,
        _words: u64,
        limits: Limits,
        _demands: Demands,
        out: &mut [CallStep],
    ) -> Found {
        traced(&OneSlice::of(view), limits, self.number, out)
    }
}

// What is found of a message, for the word of this number.
#[inline(always)]
fn traced<M: Segments>(message: &M, limits: Limits, number: u64, out: &mut [CallStep]) -> Found {
    // A message of few words may have a pointer of any number.
    if number > limits.words() + 1 {
        return path_answer(Answer::NoNode);
    }
    let count = if let Some(count) = path_of_pointer(message, limits, number, out) {
        count
    } else {
        return path_answer(Answer::NoNode);
    };
    if count > out.len() {
        return found_of_steps(Answer::BufferTooSmall, count);
    }
    found_of_steps(Answer::Good, count)
}

// What is found of a path of this many steps.
pub(crate) fn found_of_steps(answer: Answer, count: usize) -> Found {
    Found {
        answer,
        count,
        report: CallReport::none(),
    }
}
