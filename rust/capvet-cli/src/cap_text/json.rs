// crates/cap_text/src/json.rt without its contracts, by tools/erase: that text is proved, this one is only tested.
//! The JSON objects of messages, one a line (RFC 8259).

use crate::cap_text::page::{write_bytes, Page, CAPACITY};
use crate::cap_text::verdict::{refused_for, NAME};
use capvet_core::cap_buffer::HASH;
use capvet_core::cap_spec::StrictRefusal;
use capvet_core::cap_vet::Report;
use capvet_core::cap_words::{ByteOut, OutFault};

/// The space for a member whose value is a number.
pub(crate) const MEMBER: usize = 40;

/// The space for an object up to its verdict.
pub(crate) const START: usize = 60;

/// The space for the numbers of a tree.
pub(crate) const NUMBERS: usize = 4 * MEMBER;

/// Begins the page with the object of a message up to its verdict.
pub(crate) fn start_object(page: &mut Page, number: u32, verdict: &[u8]) {
    page.clear();
    page.push_named(b"{\"message\":", u64::from(number));
    page.push_text(b",\"verdict\":\"");
    page.push_text(verdict);
    page.push_text(b"\"");
}

/// Appends a member whose value is a number.
pub(crate) fn push_member(page: &mut Page, name: &[u8], number: u64) {
    page.push_text(b",\"");
    page.push_text(name);
    page.push_named(b"\":", number);
}

/// Appends the place of a pointer word and its number, unless that is 0.
pub(crate) fn push_place_members(page: &mut Page, segment: u32, word: u32, pointer: u64) {
    if pointer == 0 {
        return;
    }
    push_member(page, b"segment", u64::from(segment));
    push_member(page, b"word", u64::from(word));
    push_member(page, b"pointer", pointer);
}

/// Appends the numbers of a tree.
pub(crate) fn push_numbers(page: &mut Page, report: &Report) {
    push_member(page, b"charge", report.charge);
    push_member(page, b"depth", u64::from(report.depth));
    push_member(page, b"pointers", report.pointers);
    push_member(page, b"capabilities", report.caps);
}

/// Begins the page with the object of a message that is accepted, with the numbers of its tree.
fn accepted_object(page: &mut Page, number: u32, report: &Report) {
    start_object(page, number, b"accepted");
    push_numbers(page, report);
    page.push_text(b"}\n");
}

/// Begins the page with the object of a message that is refused, with the name of the reason and the
/// place of the pointer.
fn refused_object(
    page: &mut Page,
    number: u32,
    name: &[u8],
    segment: u32,
    word: u32,
    pointers: u64,
) {
    start_object(page, number, b"refused");
    page.push_text(b",\"reason\":\"");
    page.push_text(name);
    page.push_text(b"\"");
    push_place_members(page, segment, word, pointers);
    page.push_text(b"}\n");
}

/// Begins the page with the object of an accepted message: whether it is canonical.
fn check_object(page: &mut Page, number: u32, canonical: bool) {
    start_object(page, number, b"accepted");
    page.push_text(b",\"canonical\":");
    if canonical {
        page.push_text(b"true");
    } else {
        page.push_text(b"false");
    }
    page.push_text(b"}\n");
}

/// Begins the page with the object of an accepted message: the hash of its canonical words.
fn hash_object(page: &mut Page, number: u32, hash: &[u8; HASH]) {
    start_object(page, number, b"accepted");
    page.push_text(b",\"sha256\":\"");
    page.push_hash(hash);
    page.push_text(b"\"}\n");
}

/// Begins the page with the object of an accepted message that has no canonical form.
fn no_form_object(page: &mut Page, number: u32, segment: u32, word: u32) {
    start_object(page, number, b"accepted");
    page.push_text(b",\"sha256\":null");
    push_member(page, b"segment", u64::from(segment));
    push_member(page, b"word", u64::from(word));
    page.push_text(b"}\n");
}

/// Writes the JSON object of message `number`, which is accepted, with the numbers of its tree
/// (docs/output.md, JSON). What the page held before isn't written.
///
/// # Errors
///
/// The error of the output, which took a prefix of the line.
pub fn write_accepted_json<O: ByteOut>(
    page: &mut Page,
    out: &mut O,
    number: u32,
    report: &Report,
) -> Result<(), OutFault> {
    accepted_object(page, number, report);
    write_bytes(out, page.text())
}

/// Writes the JSON object of message `number`, which is refused, with the reason and the place
/// (docs/output.md, JSON). What the page held before isn't written.
///
/// # Errors
///
/// The error of the output, which took a prefix of the line.
pub fn write_refused_json<O: ByteOut>(
    page: &mut Page,
    out: &mut O,
    number: u32,
    refusal: &StrictRefusal,
) -> Result<(), OutFault> {
    let refused = refused_for(refusal);
    refused_object(
        page,
        number,
        refused.name,
        refused.segment,
        refused.word,
        refused.pointers,
    );
    write_bytes(out, page.text())
}

/// Writes the JSON object of message `number`, which uses a word twice, with the first pointer that
/// overlaps (docs/output.md, JSON). What the page held before isn't written.
///
/// # Errors
///
/// The error of the output, which took a prefix of the line.
pub fn write_overlap_json<O: ByteOut>(
    page: &mut Page,
    out: &mut O,
    number: u32,
    segment: u32,
    word: u32,
    pointers: u64,
) -> Result<(), OutFault> {
    refused_object(page, number, b"Overlap", segment, word, pointers);
    write_bytes(out, page.text())
}

/// Writes the JSON object of message `number`, which is accepted: whether it is canonical
/// (docs/output.md, JSON). What the page held before isn't written.
///
/// # Errors
///
/// The error of the output, which took a prefix of the line.
pub fn write_check_json<O: ByteOut>(
    page: &mut Page,
    out: &mut O,
    number: u32,
    canonical: bool,
) -> Result<(), OutFault> {
    check_object(page, number, canonical);
    write_bytes(out, page.text())
}

/// Writes the JSON object of message `number`, which is accepted: the SHA-256 of the bytes of its
/// canonical words (docs/output.md, JSON). What the page held before isn't written.
///
/// # Errors
///
/// The error of the output, which took a prefix of the line.
pub fn write_hash_json<O: ByteOut>(
    page: &mut Page,
    out: &mut O,
    number: u32,
    hash: &[u8; 32],
) -> Result<(), OutFault> {
    hash_object(page, number, hash);
    write_bytes(out, page.text())
}

/// Writes the JSON object of message `number`, which is accepted and has no canonical form, with the
/// place of its first capability (docs/output.md, JSON). What the page held before isn't written.
///
/// # Errors
///
/// The error of the output, which took a prefix of the line.
pub fn write_no_form_json<O: ByteOut>(
    page: &mut Page,
    out: &mut O,
    number: u32,
    segment: u32,
    word: u32,
) -> Result<(), OutFault> {
    no_form_object(page, number, segment, word);
    write_bytes(out, page.text())
}
