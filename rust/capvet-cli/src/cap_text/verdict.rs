// crates/cap_text/src/verdict.rt without its contracts, by tools/erase: that text is proved, this one is only tested.
//! The line of a verdict.

use crate::cap_text::page::{begin_message, message_line, write_bytes, Page, CAPACITY};
use capvet_core::cap_spec::{Lax, StrictRefusal};
use capvet_core::cap_vet::{Reason, Report};
use capvet_core::cap_words::{ByteOut, OutFault};

/// The space for the numbers of an accepted message: four names of 39 bytes in all, each with a
/// number.
const REPORT: usize = 119;

/// The most bytes of a reason's name.
pub(crate) const NAME: usize = 16;

/// The space for the place of a pointer.
const PLACE: usize = 45;

/// The space for the text of one fault, such as a reason and a place.
pub(crate) const FAULT: usize = 70;

/// Begins the page with the line of a message that is accepted, with the numbers of its tree.
pub(crate) fn accepted_line(page: &mut Page, number: u32, report: &Report) {
    begin_message(page, number);
    push_report(page, report);
    page.push_text(b"\n");
}

/// Appends the text for an accepted message: the numbers of its tree.
fn push_report(page: &mut Page, report: &Report) {
    page.push_named(b"accepted charge ", report.charge);
    page.push_named(b" depth ", u64::from(report.depth));
    page.push_named(b" pointers ", report.pointers);
    page.push_named(b" caps ", report.caps);
}

/// Writes the line of message `number`, which is accepted, with the numbers of its tree
/// (docs/output.md, vet). What the page held before isn't written.
///
/// # Errors
///
/// The error of the output, which took a prefix of the line.
pub fn write_accepted<O: ByteOut>(
    page: &mut Page,
    out: &mut O,
    number: u32,
    report: &Report,
) -> Result<(), OutFault> {
    accepted_line(page, number, report);
    write_bytes(out, page.text())
}

/// What is written about a message that is refused.
#[derive(Clone, Copy)]
pub(crate) struct Refused {
    /// The name of the reason.
    pub(crate) name: &'static [u8],
    /// The segment of the pointer that is named.
    pub(crate) segment: u32,
    /// Its word in that segment.
    pub(crate) word: u32,
    /// How many pointers were looked at.
    pub(crate) pointers: u64,
}

/// What is written about a message that is refused for this reason.
pub(crate) fn refused_for(refusal: &StrictRefusal) -> Refused {
    match refusal {
        StrictRefusal::Refused(refusal) => Refused {
            name: name_of(refusal.reason),
            segment: refusal.segment,
            word: refusal.word,
            pointers: refusal.pointers,
        },
        StrictRefusal::ManySegments => Refused {
            name: b"ManySegments",
            segment: 0,
            word: 0,
            pointers: 0,
        },
        StrictRefusal::Pointer {
            what,
            segment,
            word,
            pointers,
        } => Refused {
            name: lax_name_of(*what),
            segment: *segment,
            word: *word,
            pointers: *pointers,
        },
    }
}

/// Writes the line of message `number`, which is refused, with the reason and the place
/// (docs/output.md, vet). What the page held before isn't written.
///
/// # Errors
///
/// The error of the output, which took a prefix of the line.
// It is inlined, since a call needs the refusal in memory. `check` would copy the unused bytes of
// one for each accepted message too.
#[inline(always)]
pub fn write_refused<O: ByteOut>(
    page: &mut Page,
    out: &mut O,
    number: u32,
    refusal: &StrictRefusal,
) -> Result<(), OutFault> {
    let refused = refused_for(refusal);
    refused_line(
        page,
        number,
        refused.name,
        refused.segment,
        refused.word,
        refused.pointers,
    );
    write_bytes(out, page.text())
}

/// Writes the line of message `number`, which uses a word twice, with the first pointer that
/// overlaps (docs/output.md, vet). What the page held before isn't written.
///
/// # Errors
///
/// The error of the output, which took a prefix of the line.
pub fn write_overlap<O: ByteOut>(
    page: &mut Page,
    out: &mut O,
    number: u32,
    segment: u32,
    word: u32,
    pointers: u64,
) -> Result<(), OutFault> {
    refused_line(page, number, b"Overlap", segment, word, pointers);
    write_bytes(out, page.text())
}

/// Writes the line that `filter`, the guard and the libraries refuse a message, with the reason and
/// the place (docs/output.md, explain). It comes after the line of a message that is accepted. What
/// the page held before isn't written.
///
/// # Errors
///
/// The error of the output, which took a prefix of the line.
pub fn write_filtered<O: ByteOut>(
    page: &mut Page,
    out: &mut O,
    refusal: &StrictRefusal,
) -> Result<(), OutFault> {
    let why = refused_for(refusal);
    filtered_line(page, why.name, why.segment, why.word, why.pointers);
    write_bytes(out, page.text())
}

/// Begins the page with the line of a message that `filter`, the guard and the libraries refuse, with
/// the name of the reason and the place.
fn filtered_line(page: &mut Page, name: &[u8], segment: u32, word: u32, pointers: u64) {
    page.clear();
    page.push_text(b"  filter, the guard and the libraries refuse it: ");
    page.push_text(name);
    push_place(page, segment, word);
    page.push_named(b" pointers ", pointers);
    page.push_text(b"\n");
}

/// Begins the page with the line of a message that is refused, with the name of the reason and the
/// place.
fn refused_line(page: &mut Page, number: u32, name: &[u8], segment: u32, word: u32, pointers: u64) {
    begin_message(page, number);
    push_refused(page, name, segment, word);
    page.push_named(b" pointers ", pointers);
    page.push_text(b"\n");
}

/// Appends the name of the reason for which a message is refused, and the place.
pub(crate) fn push_refused(page: &mut Page, name: &[u8], segment: u32, word: u32) {
    page.push_text(b"refused ");
    page.push_text(name);
    push_place(page, segment, word);
}

/// Appends the place of a pointer word.
pub(crate) fn push_place(page: &mut Page, segment: u32, word: u32) {
    page.push_named(b" at ", u64::from(segment));
    page.push_named(b":", u64::from(word));
}

/// Begins the page with the line of an accepted message: whether it is canonical.
fn check_line(page: &mut Page, number: u32, canonical: bool) {
    if canonical {
        message_line(page, number, b"canonical");
    } else {
        message_line(page, number, b"not canonical");
    }
}

/// Writes the line of message `number`, which is accepted: whether it is canonical (docs/output.md,
/// check). What the page held before isn't written.
///
/// # Errors
///
/// The error of the output, which took a prefix of the line.
pub fn write_check<O: ByteOut>(
    page: &mut Page,
    out: &mut O,
    number: u32,
    canonical: bool,
) -> Result<(), OutFault> {
    check_line(page, number, canonical);
    write_bytes(out, page.text())
}

/// The name of a reason.
pub(crate) fn name_of(reason: Reason) -> &'static [u8] {
    match reason {
        Reason::NoRoot => b"NoRoot",
        Reason::Reserved => b"Reserved",
        Reason::SegmentMissing => b"SegmentMissing",
        Reason::PadOutside => b"PadOutside",
        Reason::PadIsFar => b"PadIsFar",
        Reason::PadNotFar => b"PadNotFar",
        Reason::TagKind => b"TagKind",
        Reason::TagOffset => b"TagOffset",
        Reason::OutOfSegment => b"OutOfSegment",
        Reason::CompositeTag => b"CompositeTag",
        Reason::CompositeOverrun => b"CompositeOverrun",
        Reason::DepthLimit => b"DepthLimit",
        Reason::WordLimit => b"WordLimit",
    }
}

/// The name of a form that common readers reject.
fn lax_name_of(what: Lax) -> &'static [u8] {
    match what {
        Lax::NullPad => b"NullPad",
        Lax::EmptySegment => b"EmptySegment",
        Lax::CapabilityPad => b"CapabilityPad",
    }
}
