// crates/cap_text/src/difference.rt without its contracts, by tools/erase: that text is proved, this one is only tested.
//! The text about the first difference of an accepted message from its canonical copy.

use crate::cap_text::explained::{push_refusal, REFUSAL, SENTENCE};
use crate::cap_text::json::{push_numbers, start_object, NUMBERS, START};
use crate::cap_text::page::{begin_message, message_line, write_bytes, Page, CAPACITY};
use crate::cap_text::verdict::{push_place, refused_for, Refused, NAME};
use capvet_core::cap_difference::{Difference, DifferenceReason};
use capvet_core::cap_spec::{Step, StrictRefusal};
use capvet_core::cap_vet::Report;
use capvet_core::cap_words::{ByteOut, OutFault};

/// The space for the members on whether a message is canonical.
const CANONICAL: usize = REFUSAL + 40;

/// The name of a reason.
fn difference_name(reason: DifferenceReason) -> &'static [u8] {
    match reason {
        DifferenceReason::Segments => b"Segments",
        DifferenceReason::Far => b"Far",
        DifferenceReason::Capability => b"Capability",
        DifferenceReason::EmptyStruct => b"EmptyStruct",
        DifferenceReason::Place => b"Place",
        DifferenceReason::Bits => b"Bits",
        DifferenceReason::EmptyList => b"EmptyList",
        DifferenceReason::Surplus => b"Surplus",
        DifferenceReason::DataZero => b"DataZero",
        DifferenceReason::PointerNull => b"PointerNull",
        DifferenceReason::Trailing => b"Trailing",
    }
}

/// Begins the page with the line of a message with this first difference.
fn not_canonical_line(page: &mut Page, number: u32, difference: &Difference) {
    begin_message(page, number);
    page.push_text(b"not canonical: ");
    page.push_text(difference_name(difference.reason));
    push_place(page, difference.segment, difference.word);
    page.push_named(b" pointers ", difference.pointers);
    page.push_text(b"\n");
}

/// Begins the page with the line of a message by its first difference.
fn difference_line(page: &mut Page, number: u32, difference: &Option<Difference>) {
    match difference {
        Some(difference) => not_canonical_line(page, number, difference),
        None => message_line(page, number, b"canonical"),
    }
}

/// Writes the line of message `number`, which is accepted: that it is canonical, or the first
/// difference from its canonical copy (docs/output.md, explain). What the page held before isn't
/// written.
///
/// # Errors
///
/// The error of the output, which took a prefix of the line.
pub fn write_difference<O: ByteOut>(
    page: &mut Page,
    out: &mut O,
    number: u32,
    difference: &Option<Difference>,
) -> Result<(), OutFault> {
    difference_line(page, number, difference);
    write_bytes(out, page.text())
}

/// Appends the members of a message with this first difference.
fn push_difference(
    page: &mut Page,
    difference: &Difference,
    path: Option<&[Step]>,
    sentence: &[u8],
) {
    page.push_text(b",\"canonical\":false,\"difference\":{");
    let why = Refused {
        name: difference_name(difference.reason),
        segment: difference.segment,
        word: difference.word,
        pointers: difference.pointers,
    };
    push_refusal(page, why, path, sentence);
    page.push_text(b"}");
}

/// Appends the members of a message by its first difference.
fn push_canonical(
    page: &mut Page,
    difference: &Option<Difference>,
    path: Option<&[Step]>,
    sentence: &[u8],
) {
    match difference {
        Some(difference) => push_difference(page, difference, path, sentence),
        None => page.push_text(b",\"canonical\":true"),
    }
}

/// Writes the JSON object of message `number`, which is accepted, without its end: the numbers of
/// its tree, whether it is canonical, and the first difference from its canonical copy with the
/// path and the sentence (docs/output.md, JSON). What the page held before isn't written.
///
/// # Errors
///
/// The error of the output, which took a prefix of the text.
pub fn write_canonical_json<O: ByteOut>(
    page: &mut Page,
    out: &mut O,
    number: u32,
    report: &Report,
    difference: &Option<Difference>,
    path: Option<&[Step]>,
    sentence: &[u8],
) -> Result<(), OutFault> {
    start_object(page, number, b"accepted");
    push_numbers(page, report);
    push_canonical(page, difference, path, sentence);
    write_bytes(out, page.text())
}

/// Begins the page with the end of the object of a message that `filter`, the guard and the
/// libraries refuse.
fn filtered_end(page: &mut Page, why: Refused, path: Option<&[Step]>, sentence: &[u8]) {
    page.clear();
    page.push_text(b",\"filter\":{");
    push_refusal(page, why, path, sentence);
    page.push_text(b"}");
    page.push_text(b"}\n");
}

/// Writes the end of the JSON object of a message that is accepted, and that `filter`, the guard
/// and the libraries refuse, with the member that says why.
///
/// # Errors
///
/// The error of the output, which took a prefix of the text.
pub fn write_filtered_end<O: ByteOut>(
    page: &mut Page,
    out: &mut O,
    refusal: &StrictRefusal,
    path: Option<&[Step]>,
    sentence: &[u8],
) -> Result<(), OutFault> {
    filtered_end(page, refused_for(refusal), path, sentence);
    write_bytes(out, page.text())
}

/// Writes the end of the JSON object of a message that is accepted.
///
/// # Errors
///
/// The error of the output, which took a prefix of the text.
pub fn write_object_end<O: ByteOut>(page: &mut Page, out: &mut O) -> Result<(), OutFault> {
    page.clear();
    page.push_text(b"}\n");
    write_bytes(out, page.text())
}
