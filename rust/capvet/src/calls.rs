//! The calls of `capvet-core`, with the limits and steps of this crate.

use crate::{Limits, Pointer, Step};
use capvet_core::cap_calls::{self as core_calls, CallLimits, CallStep, OverlapPointer};
pub(crate) use capvet_core::cap_calls::{
    CallNode as RawNode, CallReport as RawReport, Unpacking as RawUnpacking,
};

/// The result of a call, by its number in `include/capvet.h`.
#[derive(Clone, Copy, Debug, PartialEq, Eq)]
#[repr(transparent)]
pub(crate) struct Answer(pub(crate) u32);

impl Answer {
    pub(crate) const OK: Self = Self(0);
    pub(crate) const NO_MESSAGE: Self = Self(1);
    pub(crate) const TOO_MANY_SEGMENTS: Self = Self(2);
    pub(crate) const TOO_LARGE: Self = Self(3);
    pub(crate) const TRUNCATED: Self = Self(4);
    pub(crate) const TRAILING: Self = Self(5);
    pub(crate) const BAD_LIMITS: Self = Self(8);
    pub(crate) const BUFFER_TOO_SMALL: Self = Self(9);
    #[cfg(feature = "alloc")]
    pub(crate) const BAD_PATH: Self = Self(10);
    pub(crate) const NOT_CANONICAL: Self = Self(16);
    pub(crate) const NO_NODE: Self = Self(21);
}

/// Which bytes a call takes.
#[derive(Clone, Copy, Debug, PartialEq, Eq)]
pub(crate) enum Form {
    /// One message and nothing else.
    Whole,
    /// Bytes that begin with a message.
    Prefix,
    /// The words of one segment, without a table.
    Words,
}

// The flags and the forms of `capvet_limits`.
pub(crate) const ALLOW_NONSTRICT: u32 = 1;
pub(crate) const ALLOW_AMPLIFIED: u32 = 2;
pub(crate) const FORM_PREFIX: u32 = 1;
pub(crate) const FORM_WORDS: u32 = 2;

/// The limits as the calls take them, for bytes of this form.
pub(crate) fn raw_limits(limits: &Limits, form: Form) -> CallLimits {
    let flag = |is_set: bool, flag: u32| if is_set { flag } else { 0 };
    CallLimits {
        message_words: limits.message_words(),
        charge: limits.charge(),
        depth: limits.depth(),
        flags: flag(limits.allow_nonstrict(), ALLOW_NONSTRICT)
            | flag(limits.allow_amplified(), ALLOW_AMPLIFIED),
        form: match form {
            Form::Whole => 0,
            Form::Prefix => FORM_PREFIX,
            Form::Words => FORM_WORDS,
        },
        padding: 0,
        reserved: [0; 6],
    }
}

/// A report with nothing in it.
pub(crate) const NO_REPORT: RawReport = RawReport {
    length: 0,
    input_required: 0,
    detail: 0,
    charge: 0,
    pointers: 0,
    capabilities: 0,
    depth: 0,
    segments: 0,
    segment: 0,
    word: 0,
    words: 0,
    reserved: [0; 6],
};

/// A node with nothing in it, as of null.
pub(crate) const NO_NODE: RawNode = RawNode {
    kind: 0,
    element: 0,
    count: 0,
    data_words: 0,
    pointers: 0,
    capability: 0,
    offset: 0,
    length: 0,
    reserved: [0; 2],
};

/// The start of a packed stream.
pub(crate) const NOTHING_UNPACKED: RawUnpacking = RawUnpacking {
    written: 0,
    zero_words: 0,
    literal_words: 0,
    reserved: [0; 2],
};

/// The length in bytes of the frame that a report is about. It is that of a buffer, or of a part of one.
pub(crate) const fn length_of(report: &RawReport) -> usize {
    report.length as usize
}

/// Reads the length of the frame that the bytes begin with.
pub(crate) fn frame(bytes: &[u8], limits: &Limits) -> (Answer, RawReport) {
    let mut report = NO_REPORT;
    let limits = raw_limits(limits, Form::Whole);
    let answer = core_calls::frame(bytes, &limits, &mut report);
    (Answer(answer.number()), report)
}

/// Vets the message. With [`Limits::exclusive`] this allocates one bit for each of its words.
pub(crate) fn vet(bytes: &[u8], limits: &Limits, form: Form) -> (Answer, RawReport) {
    #[cfg(feature = "alloc")]
    if limits.exclusive() {
        // (without a frame the call looks at no mark)
        let length = match form {
            Form::Words => bytes.len(),
            _ => length_of(&frame(bytes, limits).1),
        };
        let mut marks = alloc::vec![0; length / 512 + 1];
        let (answer, _, report) = vet_exclusive(bytes, limits, form, &mut marks);
        return (answer, report);
    }
    let mut report = NO_REPORT;
    let answer = core_calls::vet(bytes, &raw_limits(limits, form), &mut report);
    (Answer(answer.number()), report)
}

/// Vets the message, which may use no word twice. The number is how many elements the marks take.
pub(crate) fn vet_exclusive(
    bytes: &[u8],
    limits: &Limits,
    form: Form,
    marks: &mut [u64],
) -> (Answer, usize, RawReport) {
    let (mut required, mut report) = (0, NO_REPORT);
    let answer = core_calls::vet_exclusive(
        bytes,
        &raw_limits(limits, form),
        marks,
        &mut required,
        &mut report,
    );
    (Answer(answer.number()), required, report)
}

/// Checks that the message is its own canonical form.
pub(crate) fn is_canonical(bytes: &[u8], limits: &Limits, form: Form) -> (Answer, RawReport) {
    let mut report = NO_REPORT;
    let answer = core_calls::check_canonical(bytes, &raw_limits(limits, form), &mut report);
    (Answer(answer.number()), report)
}

/// Finds the first difference of the message from its canonical form.
pub(crate) fn first_difference(bytes: &[u8], limits: &Limits) -> (Answer, RawReport) {
    let mut report = NO_REPORT;
    let limits = raw_limits(limits, Form::Whole);
    let answer = core_calls::first_difference(bytes, &limits, &mut report);
    (Answer(answer.number()), report)
}

/// Writes the canonical form of the message to the start of `out`. The number is its length in bytes.
pub(crate) fn canonical(bytes: &[u8], limits: &Limits, out: &mut [u8]) -> (Answer, usize) {
    let (mut required, mut report) = (0, NO_REPORT);
    let limits = raw_limits(limits, Form::Whole);
    let answer = core_calls::canonical(bytes, &limits, out, &mut required, &mut report);
    (Answer(answer.number()), required)
}

/// Where a text stops being a path, if it does.
#[cfg(feature = "alloc")]
pub(crate) fn bad_path(path: &str) -> Option<usize> {
    // (the text is looked at before the bytes, which are none)
    let (mut node, mut report) = (NO_NODE, NO_REPORT);
    let limits = raw_limits(&Limits::LARGEST, Form::Whole);
    let answer = core_calls::get(&[], &limits, path.as_bytes(), &mut node, &mut report);
    (answer.number() == Answer::BAD_PATH.0).then_some(report.detail as usize)
}

// More steps than any path to a node has. In each level one step leads to an object, and one to an element of it.
const LONGEST: usize = 2 * Limits::MAX_DEPTH as usize + 2;
// As many as most paths have, so that the others alone take much stack.
const SHORT: usize = 16;

fn raw_step(step: &Step) -> CallStep {
    match *step {
        Step::Pointer(number) => CallStep {
            kind: 0,
            number: number.into(),
        },
        Step::Element(number) => CallStep { kind: 1, number },
    }
}

// Calls with the first `N` steps as the calls take them. (nothing is at a longer path, so the first steps give its answer)
fn with_steps<const N: usize, T>(steps: &[Step], call: impl FnOnce(&mut [CallStep]) -> T) -> T {
    let mut raw = [CallStep { kind: 0, number: 0 }; N];
    let count = steps.len().min(N);
    for (raw, step) in raw.iter_mut().zip(steps) {
        *raw = raw_step(step);
    }
    call(&mut raw[..count])
}

/// Finds the node at a path.
pub(crate) fn get(bytes: &[u8], limits: &Limits, path: &[Step]) -> (Answer, RawNode, RawReport) {
    let (mut nodes, mut report) = ([NO_NODE], NO_REPORT);
    if let Some(last) = path.len().checked_sub(1) {
        let (answer, _, report) = get_range(bytes, limits, path, last, 0, &mut nodes);
        return (answer, nodes[0], report);
    }
    let limits = raw_limits(limits, Form::Whole);
    let answer = core_calls::get(bytes, &limits, b"/", &mut nodes[0], &mut report);
    (Answer(answer.number()), nodes[0], report)
}

/// Finds the nodes at the paths of a range: the number of the step `varying` is `more` more in the first of them. The number
/// that is returned is how many are found.
pub(crate) fn get_range(
    bytes: &[u8],
    limits: &Limits,
    path: &[Step],
    varying: usize,
    more: u32,
    nodes: &mut [RawNode],
) -> (Answer, usize, RawReport) {
    let (mut found, mut report) = (0, NO_REPORT);
    let limits = raw_limits(limits, Form::Whole);
    let call = |steps: &mut [CallStep]| {
        let varying = varying.min(steps.len().saturating_sub(1));
        if let Some(step) = steps.get_mut(varying) {
            step.number += more;
        }
        core_calls::get_range(
            bytes,
            &limits,
            steps,
            varying,
            nodes,
            &mut found,
            &mut report,
        )
    };
    let answer = match path.len() <= SHORT {
        true => with_steps::<SHORT, _>(path, call),
        false => with_steps::<LONGEST, _>(path, call),
    };
    (Answer(answer.number()), found, report)
}

/// The most steps of a path to a pointer, since each leads one level down.
pub(crate) const MOST_LEVELS: usize = Limits::MAX_DEPTH as usize;

/// Writes the steps to the pointer of this number in preorder. The number that is returned is how many they are.
pub(crate) fn pointer_path(
    bytes: &[u8],
    limits: &Limits,
    number: u64,
    steps: &mut [Step; MOST_LEVELS],
) -> Option<usize> {
    let (mut required, mut report) = (0, NO_REPORT);
    let mut raw = [CallStep { kind: 0, number: 0 }; MOST_LEVELS];
    let limits = raw_limits(limits, Form::Prefix);
    let answer =
        core_calls::pointer_path(bytes, &limits, number, &mut raw, &mut required, &mut report);
    if answer.number() != 0 {
        return None;
    }
    for (step, raw) in steps.iter_mut().zip(&raw[..required]) {
        *step = match raw.kind {
            // (a struct has at most 65535 pointers)
            0 => Step::Pointer(raw.number as u16),
            _ => Step::Element(raw.number),
        };
    }
    Some(required)
}

/// Finds the first pointer that uses a word which the pointer of this number in preorder uses too.
#[cfg(feature = "alloc")]
pub(crate) fn earlier_pointer(bytes: &[u8], limits: &Limits, number: u64) -> Option<Pointer> {
    let mut report = NO_REPORT;
    let limits = raw_limits(limits, Form::Prefix);
    let answer = core_calls::earlier_pointer(bytes, &limits, number, &mut report);
    (answer.number() == 0).then(|| Pointer::of(&report))
}

/// The most bytes of an explanation.
pub(crate) const EXPLANATION_BOUND: usize = 6144;

/// Writes why the message isn't accepted to the start of `text`. The number is the length of the lines in bytes, 0 if it is.
pub(crate) fn explain(bytes: &[u8], limits: &Limits, text: &mut [u8; EXPLANATION_BOUND]) -> usize {
    let (mut required, mut report) = (0, NO_REPORT);
    let limits = raw_limits(limits, Form::Prefix);
    core_calls::explain(bytes, &limits, text, &mut required, &mut report);
    required
}

/// The most bytes of the lines of an overlap.
pub(crate) const OVERLAP_BOUND: usize = 12288;

/// Writes why a pointer overlaps to the start of `text`. The number is the length of the lines in bytes, 0 if the message has no
/// such pointer.
pub(crate) fn explain_overlap(
    bytes: &[u8],
    limits: &Limits,
    pointer: Pointer,
    text: &mut [u8; OVERLAP_BOUND],
) -> usize {
    let (mut required, mut report) = (0, NO_REPORT);
    let limits = raw_limits(limits, Form::Prefix);
    let Pointer { position, number } = pointer;
    let pointer = OverlapPointer {
        segment: position.segment,
        word: position.word,
        number,
    };
    core_calls::explain_overlap(bytes, &limits, pointer, text, &mut required, &mut report);
    required
}

/// Packs the words to the start of `out`. The number is the length of the packed bytes.
pub(crate) fn pack(words: &[u8], out: &mut [u8]) -> (Answer, usize) {
    let mut required = 0;
    let answer = core_calls::pack(words, out, &mut required);
    (Answer(answer.number()), required)
}

/// Unpacks all packed bytes to the start of `out`. The number is the length of the words in bytes.
pub(crate) fn unpack(packed: &[u8], out: &mut [u8]) -> (Answer, usize) {
    let mut required = 0;
    let answer = core_calls::unpack(packed, out, &mut required);
    (Answer(answer.number()), required)
}

/// Packs the message to the start of `out`. The number is the length of the packed bytes.
pub(crate) fn pack_message(bytes: &[u8], out: &mut [u8]) -> (Answer, usize, RawReport) {
    let (mut required, mut report) = (0, NO_REPORT);
    let limits = raw_limits(&Limits::LARGEST, Form::Whole);
    let answer = core_calls::pack_message(bytes, &limits, out, &mut required, &mut report);
    (Answer(answer.number()), required, report)
}

/// The result of `unpack_message`.
pub(crate) struct Unpacked {
    pub(crate) answer: Answer,
    /// How many of the packed bytes are done with.
    pub(crate) consumed: usize,
    /// The length of the frame, or how many bytes `out` has to have.
    pub(crate) required: usize,
    pub(crate) report: RawReport,
}

/// Unpacks packed bytes to `out`, up to the end of a message.
pub(crate) fn unpack_message(
    packed: &[u8],
    limits: &Limits,
    out: &mut [u8],
    state: &mut RawUnpacking,
) -> Unpacked {
    let (mut consumed, mut required, mut report) = (0, 0, NO_REPORT);
    let answer = core_calls::unpack_message(
        packed,
        &raw_limits(limits, Form::Whole),
        out,
        state,
        &mut consumed,
        &mut required,
        &mut report,
    );
    Unpacked {
        answer: Answer(answer.number()),
        consumed,
        required,
        report,
    }
}
