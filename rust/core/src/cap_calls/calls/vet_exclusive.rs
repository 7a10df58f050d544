// crates/cap_calls/src/calls/vet_exclusive.rt without its contracts, by tools/erase: that text is proved, this one is only tested.
//! The call that vets a message of which no word may be used twice.

use crate::cap_calls::answer::Answer;
use crate::cap_calls::found::Found;
use crate::cap_calls::input::over_input;
use crate::cap_calls::limits::CallLimits;
use crate::cap_calls::over::Call;
use crate::cap_calls::report::CallReport;
use crate::cap_frame::ByteView;
use crate::cap_vet::{marks_for, vet_with, Demands, ExclusiveFault, Limits};

/// Vets the message that bytes are as [`crate::vet`] does, and also refuses one that uses a word
/// twice: by two pointers that paths reach, by one pointer, or by the root (profile). It marks a
/// bit for each word in `marks`, which may hold anything before. Allocates nothing.
///
/// The first of these that applies is returned:
/// - the answers of [`crate::vet`], if the message isn't accepted; `required` is 0;
/// - [`Answer::BufferTooSmall`], if `marks` has fewer than `required` numbers; the report is that
///   of [`crate::vet`];
/// - [`Answer::Overlap`], if a word is used twice; the report names the first pointer in preorder
///   that uses one, and how many were checked;
/// - [`Answer::Good`]; the report is that of [`crate::vet`].
///
/// After the last two, the contents of the first `required` numbers are unspecified, and the others
/// are unchanged. After any other answer all are unchanged. The report is written whole.
pub fn vet_exclusive(
    bytes: &[u8],
    limits: &CallLimits,
    marks: &mut [u64],
    required: &mut usize,
    report: &mut CallReport,
) -> Answer {
    let whole = !limits.allows_trailing();
    let (answer, count) = over_input(&Marking, whole, bytes, limits, marks, report);
    *required = count;
    answer
}

// The call on a message.
struct Marking;

impl Call for Marking {
    type Item = u64;

    #[inline(never)]
    fn on<'b>(
        &self,
        view: &ByteView<'b>,
        words: u64,
        limits: Limits,
        demands: Demands,
        marks: &mut [u64],
    ) -> Found {
        let vetted = match vet_with(view, limits, demands) {
            Ok(vetted) => vetted,
            Err(refusal) => return Found::refused(refusal),
        };
        let report = vetted.report();
        let numbers = marks_for(words);
        match vetted.into_exclusive_in(marks) {
            Ok(_) => Found::accepted(Answer::Good, numbers, report),
            Err(fault) => found_of_fault(fault, numbers),
        }
    }
}

// What is found of an accepted message that isn't exclusive, if its marks take `numbers`.
fn found_of_fault(fault: ExclusiveFault, numbers: usize) -> Found {
    match fault {
        ExclusiveFault::Refused(_) => unreachable!(),
        ExclusiveFault::BufferTooSmall { report, .. } => {
            Found::accepted(Answer::BufferTooSmall, numbers, report)
        }
        ExclusiveFault::Overlap {
            segment,
            word,
            pointers,
        } => Found {
            answer: Answer::Overlap,
            count: numbers,
            report: CallReport::of_place(segment, word, pointers),
        },
    }
}
