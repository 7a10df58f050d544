// crates/cap_text/src/explained.rt without its contracts, by tools/erase: that text is proved, this one is only tested.
//! The JSON objects that explain why a message is refused, one a line (RFC 8259).

use crate::cap_text::json::{push_member, push_numbers, push_place_members, start_object, MEMBER};
use crate::cap_text::page::{write_bytes, Page, CAPACITY};
use crate::cap_text::verdict::{refused_for, Refused, NAME};
use capvet_core::cap_buffer::{DIGITS, STEP, STEPS};
use capvet_core::cap_spec::{Step, StrictRefusal};
use capvet_core::cap_trace::Cycle;
use capvet_core::cap_vet::Report;
use capvet_core::cap_words::{ByteOut, OutFault};

/// The space for a path, with its member.
const PATH: usize = 11 + STEP * STEPS;

/// The most bytes of a sentence.
pub(crate) const SENTENCE: usize = 120;

/// The space for the members of a refusal.
pub(crate) const REFUSAL: usize = NAME + 3 * MEMBER + PATH + SENTENCE + 40;

/// Appends the member of a path.
fn push_steps_member(page: &mut Page, steps: &[Step]) {
    page.push_text(b",\"path\":\"");
    page.push_path(steps);
    page.push_text(b"\"");
}

/// Appends the member of a path, if there is a path of at most 257 steps.
fn push_path_member(page: &mut Page, path: Option<&[Step]>) {
    if let Some(steps) = path {
        if steps.len() <= STEPS {
            push_steps_member(page, steps);
        }
    }
}

/// Appends the member of a reason as a sentence.
fn push_sentence(page: &mut Page, sentence: &[u8]) {
    page.push_text(b",\"sentence\":\"");
    page.push_text(sentence);
    page.push_text(b"\"");
}

/// Appends the member of a reason's name, the first of its object.
fn push_reason(page: &mut Page, name: &[u8]) {
    page.push_text(b"\"reason\":\"");
    page.push_text(name);
    page.push_text(b"\"");
}

/// Appends the members of a refusal.
pub(crate) fn push_refusal(page: &mut Page, why: Refused, path: Option<&[Step]>, sentence: &[u8]) {
    push_reason(page, why.name);
    push_place_members(page, why.segment, why.word, why.pointers);
    push_path_member(page, path);
    push_sentence(page, sentence);
}

/// Appends the members of a cycle.
fn push_cycle_members(page: &mut Page, cycle: Cycle) {
    page.push_named(b"\"segment\":", u64::from(cycle.segment));
    push_member(page, b"word", u64::from(cycle.word));
    push_member(page, b"from_level", u64::from(cycle.from_level));
    push_member(page, b"to_level", u64::from(cycle.to_level));
}

/// Appends the member of a cycle, if there is one.
fn push_cycle_member(page: &mut Page, cycle: Option<Cycle>) {
    if let Some(cycle) = cycle {
        page.push_text(b",\"cycle\":{");
        push_cycle_members(page, cycle);
        page.push_text(b"}");
    }
}

/// Begins the page with the object of a message that is refused.
fn refused_object(
    page: &mut Page,
    number: u32,
    why: Refused,
    path: Option<&[Step]>,
    sentence: &[u8],
    cycle: Option<Cycle>,
) {
    start_object(page, number, b"refused");
    page.push_text(b",");
    push_refusal(page, why, path, sentence);
    push_cycle_member(page, cycle);
    page.push_text(b"}\n");
}

/// Begins the page with the object of a message that is accepted, and that `filter`, the guard and
/// the libraries refuse.
fn filtered_object(
    page: &mut Page,
    number: u32,
    report: &Report,
    why: Refused,
    path: Option<&[Step]>,
    sentence: &[u8],
) {
    start_object(page, number, b"accepted");
    push_numbers(page, report);
    page.push_text(b",\"filter\":{");
    push_refusal(page, why, path, sentence);
    page.push_text(b"}");
    page.push_text(b"}\n");
}

/// Writes the JSON object of message `number`, which is refused: the reason, the place of the
/// pointer, the path to it, the reason as a sentence, and the last cycle of the path, if it has one
/// (docs/output.md, JSON). A path of more than 257 steps has no member: no path to a pointer of a
/// refusal has as many. What the page held before isn't written.
///
/// # Errors
///
/// The error of the output, which took a prefix of the line.
pub fn write_explained_json<O: ByteOut>(
    page: &mut Page,
    out: &mut O,
    number: u32,
    refusal: &StrictRefusal,
    path: Option<&[Step]>,
    sentence: &[u8],
    cycle: Option<Cycle>,
) -> Result<(), OutFault> {
    refused_object(page, number, refused_for(refusal), path, sentence, cycle);
    write_bytes(out, page.text())
}

/// Writes the JSON object of message `number`, which uses a word twice, as [`write_explained_json`]
/// does. The place is that of the first pointer that overlaps.
///
/// # Errors
///
/// The error of the output, which took a prefix of the line.
pub fn write_explained_overlap_json<O: ByteOut>(
    page: &mut Page,
    out: &mut O,
    number: u32,
    segment: u32,
    word: u32,
    pointers: u64,
    path: Option<&[Step]>,
    sentence: &[u8],
) -> Result<(), OutFault> {
    let overlap = Refused {
        name: b"Overlap",
        segment,
        word,
        pointers,
    };
    refused_object(page, number, overlap, path, sentence, None);
    write_bytes(out, page.text())
}

/// Writes the JSON object of message `number`, which is accepted, with the numbers of its tree, and
/// why `filter`, the guard and the libraries refuse it (docs/output.md, JSON). What the page held
/// before isn't written.
///
/// # Errors
///
/// The error of the output, which took a prefix of the line.
pub fn write_filtered_json<O: ByteOut>(
    page: &mut Page,
    out: &mut O,
    number: u32,
    report: &Report,
    refusal: &StrictRefusal,
    path: Option<&[Step]>,
    sentence: &[u8],
) -> Result<(), OutFault> {
    filtered_object(page, number, report, refused_for(refusal), path, sentence);
    write_bytes(out, page.text())
}
