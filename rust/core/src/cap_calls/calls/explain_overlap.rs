// crates/cap_calls/src/calls/explain_overlap.rt without its contracts, by tools/erase: that text is proved, this one is only tested.
//! The call that explains an overlap.

use crate::cap_calls::answer::Answer;
use crate::cap_calls::calls::get::path_answer;
use crate::cap_calls::calls::pointer_path::found_of_steps;
use crate::cap_calls::found::Found;
use crate::cap_calls::input::over_input;
use crate::cap_calls::limits::CallLimits;
use crate::cap_calls::one_slice::OneSlice;
use crate::cap_calls::over::Call;
use crate::cap_calls::report::CallReport;
use crate::cap_explain::{explain_earlier, explain_overlap_alone, Explanation};
use crate::cap_frame::{ByteView, Segments};
use crate::cap_spec::Step;
use crate::cap_trace::{EarlierPointer, NamedPath};
use crate::cap_vet::{Demands, Limits};

/// The pointer of an overlap, as [`crate::vet_exclusive`] reports it.
#[derive(Clone, Copy)]
pub struct OverlapPointer {
    /// The segment of its pointer word, counted from 0.
    pub segment: u32,
    /// The word in that segment, counted from 0.
    pub word: u32,
    /// Its number in preorder, which is the `pointers` of the report.
    pub number: u64,
}

/// Writes the lines that explain an overlap to the start of `text` (docs/output.md, explain). They are
/// the lines that `capvet explain --exclusive` writes after the line of the verdict, without the byte
/// in the input. `pointer` is the pointer that [`crate::vet_exclusive`] reports of the same message. The
/// last line names the first pointer that uses such a word, if there is one. Whether the pointer
/// overlaps isn't looked at. The pointers before it are followed, and the depth limit applies to them.
/// Allocates nothing.
///
/// The first of these that applies is returned:
/// - why there is no frame, or [`Answer::Trailing`], as for [`crate::vet`]; `required` is 0;
/// - [`Answer::NoNode`]: there is no path to the pointer of this number: see [`crate::pointer_path`];
///   `required` is 0;
/// - [`Answer::BufferTooSmall`], if `text` has fewer than `required` bytes;
/// - [`Answer::Good`]; the lines are the first `required` bytes, and the others are unchanged.
///
/// Without [`Answer::Good`] all bytes are unchanged. The report is written whole.
pub fn explain_overlap(
    bytes: &[u8],
    limits: &CallLimits,
    pointer: OverlapPointer,
    text: &mut [u8],
    required: &mut usize,
    report: &mut CallReport,
) -> Answer {
    let whole = !limits.allows_trailing();
    let call = Overlapping {
        has_table: !limits.has_no_table(),
        pointer,
    };
    let (answer, count) = over_input(&call, whole, bytes, limits, text, report);
    *required = count;
    answer
}

// The call on a message, which has a segment table or not.
#[derive(Clone, Copy)]
struct Overlapping {
    has_table: bool,
    pointer: OverlapPointer,
}

impl Call for Overlapping {
    type Item = u8;

    #[inline(never)]
    fn on<'b>(
        &self,
        view: &ByteView<'b>,
        _words: u64,
        limits: Limits,
        _demands: Demands,
        out: &mut [u8],
    ) -> Found {
        overlap_found(view, limits, self.has_table, self.pointer, out)
    }

    // A search of its own, which looks up neither starts nor sizes of segments.
    #[inline(never)]
    fn on_one<'b>(
        &self,
        view: &ByteView<'b>,
        _words: u64,
        limits: Limits,
        _demands: Demands,
        out: &mut [u8],
    ) -> Found {
        overlap_found(
            &OneSlice::of(view),
            limits,
            self.has_table,
            self.pointer,
            out,
        )
    }
}

// What is found of a message, for this pointer.
#[inline(always)]
fn overlap_found<M: Segments>(
    message: &M,
    limits: Limits,
    has_table: bool,
    pointer: OverlapPointer,
    out: &mut [u8],
) -> Found {
    let number = pointer.number;
    // A message of few words may have a pointer of any number.
    if number > limits.words() + 1 {
        return path_answer(Answer::NoNode);
    }
    let mut path = NamedPath::new();
    path.find(message, limits, number);
    match path.steps() {
        Some(steps) => explained(message, limits, has_table, pointer, steps, out),
        None => path_answer(Answer::NoNode),
    }
}

// The same of a pointer with this path.
#[inline(never)]
fn explained<M: Segments>(
    message: &M,
    limits: Limits,
    has_table: bool,
    pointer: OverlapPointer,
    steps: &[Step],
    out: &mut [u8],
) -> Found {
    let mut earlier_path = NamedPath::new();
    let earlier = earlier_path.find_earlier(message, limits, pointer.number);
    put_lines(
        message,
        has_table,
        pointer,
        steps,
        earlier,
        &earlier_path,
        out,
    )
}

// Puts the lines to the start of a buffer, if they fit. They have one buffer of their own, which takes
// no stack before the earlier pointer is found. So the last line is written to it twice.
#[inline(never)]
fn put_lines<M: Segments>(
    message: &M,
    has_table: bool,
    pointer: OverlapPointer,
    steps: &[Step],
    earlier: Option<EarlierPointer>,
    earlier_path: &NamedPath,
    out: &mut [u8],
) -> Found {
    let mut text = Explanation::new();
    write_earlier(&mut text, earlier, earlier_path);
    let more = text.text().len();
    explain_overlap_alone(
        &mut text,
        message,
        has_table,
        pointer.segment,
        pointer.word,
        Some(steps),
    );
    let start = text.text().len();
    let count = start + more;
    if count > out.len() {
        return found_of_steps(Answer::BufferTooSmall, count);
    }
    out[..start].copy_from_slice(text.text());
    write_earlier(&mut text, earlier, earlier_path);
    out[start..count].copy_from_slice(text.text());
    found_of_steps(Answer::Good, count)
}

// Writes the line of the earlier pointer, to which this is the path. What the text held before is
// removed.
fn write_earlier(text: &mut Explanation, earlier: Option<EarlierPointer>, path: &NamedPath) {
    match earlier {
        Some(earlier) => explain_earlier(text, earlier.segment, earlier.word, path.steps()),
        None => explain_earlier(text, 0, 0, None),
    }
}
