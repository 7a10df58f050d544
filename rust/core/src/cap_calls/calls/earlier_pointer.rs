// crates/cap_calls/src/calls/earlier_pointer.rt without its contracts, by tools/erase: that text is proved, this one is only tested.
//! The call for the earlier pointer of an overlap.

use crate::cap_calls::answer::Answer;
use crate::cap_calls::calls::get::path_answer;
use crate::cap_calls::found::Found;
use crate::cap_calls::input::over_input;
use crate::cap_calls::limits::CallLimits;
use crate::cap_calls::one_slice::OneSlice;
use crate::cap_calls::over::Call;
use crate::cap_calls::report::CallReport;
use crate::cap_frame::{ByteView, Segments};
use crate::cap_trace::earlier_pointer as earlier_of;
use crate::cap_vet::{Demands, Limits};

/// Finds the first pointer in preorder that uses a word which pointer `number` uses too, in the message
/// that bytes are. The `pointers` that [`crate::vet_exclusive`] reports of an overlap is the number of
/// the pointer that overlaps. A pointer uses its landing pads and the words of its object. The pointers
/// before that one are followed, and the depth limit applies to them. Allocates nothing.
///
/// The first of these that applies is returned:
/// - why there is no frame, or [`Answer::Trailing`], as for [`crate::vet`];
/// - [`Answer::NoNode`]: no pointer before that one uses such a word. Or there is no path to that one:
///   see [`crate::pointer_path`];
/// - [`Answer::Good`]; the report has the segment, the word and the number of the earlier pointer.
///
/// The report is written whole.
pub fn earlier_pointer(
    bytes: &[u8],
    limits: &CallLimits,
    number: u64,
    report: &mut CallReport,
) -> Answer {
    let whole = !limits.allows_trailing();
    over_input(&Sharing { number }, whole, bytes, limits, &mut [], report).0
}

// The call on a message, for the pointer of this number.
#[derive(Clone, Copy)]
struct Sharing {
    number: u64,
}

impl Call for Sharing {
    type Item = u8;

    #[inline(never)]
    fn on<'b>(
        &self,
        view: &ByteView<'b>,
        _words: u64,
        limits: Limits,
        _demands: Demands,
        _out: &mut [u8],
    ) -> Found {
        earlier_found(view, limits, self.number)
    }

    // A search of its own, which looks up neither starts nor sizes of segments.
    #[inline(never)]
    fn on_one<'b>(
        &self,
        view: &ByteView<'b>,
        _words: u64,
        limits: Limits,
        _demands: Demands,
        _out: &mut [u8],
    ) -> Found {
        earlier_found(&OneSlice::of(view), limits, self.number)
    }
}

// What is found of a message, for the pointer of this number.
#[inline(always)]
fn earlier_found<M: Segments>(message: &M, limits: Limits, number: u64) -> Found {
    // A message of few words may have a pointer of any number.
    if number > limits.words() + 1 {
        return path_answer(Answer::NoNode);
    }
    match earlier_of(message, limits, number) {
        Some(earlier) => Found {
            answer: Answer::Good,
            count: 0,
            report: CallReport::of_place(earlier.segment, earlier.word, earlier.pointers),
        },
        None => path_answer(Answer::NoNode),
    }
}
