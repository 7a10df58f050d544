// crates/cap_calls/src/calls/explain.rt without its contracts, by tools/erase: that text is proved, this one is only tested.
//! The call that vets a message, and explains a refusal.

use crate::cap_calls::answer::Answer;
use crate::cap_calls::found::Found;
use crate::cap_calls::input::over_input;
use crate::cap_calls::limits::CallLimits;
use crate::cap_calls::one_slice::OneSlice;
use crate::cap_calls::over::Call;
use crate::cap_calls::report::CallReport;
use crate::cap_explain::{
    explain as explain_refusal, fault_cycle, numbers_of, Explanation, Numbers,
};
use crate::cap_frame::{ByteView, Segments};
use crate::cap_spec::StrictRefusal;
use crate::cap_trace::NamedPath;
use crate::cap_vet::{limits_under, vet_with, Demands, Limits};

/// Vets the message that bytes are, as [`crate::vet`] does, and writes the lines that explain why it is
/// refused to the start of `text` (docs/output.md, explain). They are the lines that `capvet explain`
/// writes after the line of the verdict, without the byte in the input. If there is no message, or
/// bytes follow it, there is one line, which has the reason as a sentence. Allocates nothing.
///
/// It always returns and reports what [`crate::vet`] does. `required` is the length of the lines in
/// bytes: 0 if the message is accepted, or a limit is bad. They are written if `text` has as many
/// bytes, and those after them are unchanged. Else `text` is unchanged.
pub fn explain(
    bytes: &[u8],
    limits: &CallLimits,
    text: &mut [u8],
    required: &mut usize,
    report: &mut CallReport,
) -> Answer {
    let whole = !limits.allows_trailing();
    let call = Explaining {
        has_table: !limits.has_no_table(),
    };
    let (answer, count) = over_input(&call, whole, bytes, limits, text, report);
    *required = put_frame_line(answer, count, text);
    answer
}

// The line for an input that is no message and nothing else, by the answer. None for other answers.
fn frame_line(answer: Answer) -> &'static [u8] {
    match answer {
        Answer::NoMessage => b"  reason the input is empty\n",
        Answer::TooManySegments => {
            b"  reason the first word of the message says more segments than a message may have\n"
        }
        Answer::TooLarge => {
            b"  reason the segments together have more words than the limit allows\n"
        }
        Answer::Truncated => b"  reason the input ends inside the message\n",
        Answer::Trailing => b"  reason bytes follow the message\n",
        _ => b"",
    }
}

// Puts that line to the start of a buffer, if there is one and it fits. Gives its length then, and the
// length of the lines that were put there before otherwise.
fn put_frame_line(answer: Answer, count: usize, text: &mut [u8]) -> usize {
    let line = frame_line(answer);
    if line.is_empty() {
        return count;
    }
    put_text(line, text)
}

// The call on a message, which has a segment table or not.
#[derive(Clone, Copy)]
struct Explaining {
    has_table: bool,
}

impl Call for Explaining {
    type Item = u8;

    #[inline(never)]
    fn on<'b>(
        &self,
        view: &ByteView<'b>,
        _words: u64,
        limits: Limits,
        demands: Demands,
        out: &mut [u8],
    ) -> Found {
        match vet_with(view, limits, demands) {
            Ok(vetted) => Found::accepted(Answer::Good, 0, vetted.report()),
            Err(refusal) => explained(view, refusal, limits, demands, self.has_table, out),
        }
    }

    // A walk of its own, as that of [`crate::vet`], for a message that is accepted.
    #[inline(always)]
    fn on_one<'b>(
        &self,
        view: &ByteView<'b>,
        _words: u64,
        limits: Limits,
        demands: Demands,
        out: &mut [u8],
    ) -> Found {
        match vet_with(&OneSlice::of(view), limits, demands) {
            Ok(vetted) => Found::accepted(Answer::Good, 0, vetted.report()),
            Err(refusal) => explained(view, refusal, limits, demands, self.has_table, out),
        }
    }
}

// What is found of a message that doesn't meet the demands within limits, for this reason.
#[inline(never)]
fn explained<'b>(
    view: &ByteView<'b>,
    refusal: StrictRefusal,
    limits: Limits,
    demands: Demands,
    has_table: bool,
    out: &mut [u8],
) -> Found {
    let mut path = NamedPath::new();
    path.find_refused(view, limits, &refusal);
    let within = limits_under(view, limits, demands);
    let cycle = fault_cycle(view, &refusal, limits);
    let numbers = numbers_of(view, &refusal, cycle, within, has_table, None);
    let count = put_lines(view, &refusal, numbers, &path, out);
    Found {
        count,
        ..Found::refused(refusal)
    }
}

// Puts the lines to the start of a buffer, if they fit. They have a buffer of their own first, which
// takes no stack before the path is found.
#[inline(never)]
fn put_lines<'b>(
    view: &ByteView<'b>,
    refusal: &StrictRefusal,
    numbers: Numbers,
    path: &NamedPath,
    out: &mut [u8],
) -> usize {
    let mut lines = Explanation::new();
    explain_refusal(&mut lines, view, refusal, numbers, path.steps());
    put_text(lines.text(), out)
}

// Puts a text to the start of a buffer, if it fits. Gives its length.
fn put_text(text: &[u8], out: &mut [u8]) -> usize {
    let count = text.len();
    if count > out.len() {
        return count;
    }
    out[..count].copy_from_slice(text);
    count
}
