// crates/cap_text/src/hash.rt without its contracts, by tools/erase: that text is proved, this one is only tested.
//! The lines of a hash.

use crate::cap_text::page::{begin_message, write_bytes, Page};
use crate::cap_text::verdict::push_place;
use capvet_core::cap_buffer::HASH;
use capvet_core::cap_words::{ByteOut, OutFault};

/// Begins the page with the line of an accepted message: the hash of its canonical words.
fn hash_line(page: &mut Page, number: u32, hash: &[u8; HASH]) {
    begin_message(page, number);
    page.push_text(b"sha256 ");
    page.push_hash(hash);
    page.push_text(b"\n");
}

/// Begins the page with the hash of canonical words alone, as a line.
fn digest_line(page: &mut Page, hash: &[u8; HASH]) {
    page.clear();
    page.push_hash(hash);
    page.push_text(b"\n");
}

/// Begins the page with the line of an accepted message that has no canonical form.
fn no_form_line(page: &mut Page, number: u32, segment: u32, word: u32) {
    begin_message(page, number);
    page.push_text(b"no canonical form, capability");
    push_place(page, segment, word);
    page.push_text(b"\n");
}

/// Writes the line of message `number`, which is accepted: the SHA-256 of the bytes of its canonical
/// words (docs/output.md, hash). What the page held before isn't written.
///
/// # Errors
///
/// The error of the output, which took a prefix of the line.
pub fn write_hash<O: ByteOut>(
    page: &mut Page,
    out: &mut O,
    number: u32,
    hash: &[u8; 32],
) -> Result<(), OutFault> {
    hash_line(page, number, hash);
    write_bytes(out, page.text())
}

/// Writes a line with nothing but the SHA-256 of the bytes of a message's canonical words
/// (docs/output.md, hash). What the page held before isn't written.
///
/// # Errors
///
/// The error of the output, which took a prefix of the line.
pub fn write_digest<O: ByteOut>(
    page: &mut Page,
    out: &mut O,
    hash: &[u8; 32],
) -> Result<(), OutFault> {
    digest_line(page, hash);
    write_bytes(out, page.text())
}

/// Writes the line of message `number`, which is accepted and has no canonical form, with the place of
/// its first capability (docs/output.md, hash). What the page held before isn't written.
///
/// # Errors
///
/// The error of the output, which took a prefix of the line.
pub fn write_no_form<O: ByteOut>(
    page: &mut Page,
    out: &mut O,
    number: u32,
    segment: u32,
    word: u32,
) -> Result<(), OutFault> {
    no_form_line(page, number, segment, word);
    write_bytes(out, page.text())
}
