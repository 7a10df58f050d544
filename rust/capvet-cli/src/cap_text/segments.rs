// crates/cap_text/src/segments.rt without its contracts, by tools/erase: that text is proved, this one is only tested.
//! The text of a message's segments: their number and sizes, and the root word.

use crate::cap_text::page::{begin_message, make_space, write_page, Page, CAPACITY, LINE};
use capvet_core::cap_frame::Outline;
use capvet_core::cap_words::{ByteOut, OutFault};

/// Begins the page with the line on the message as a whole.
fn head_line(page: &mut Page, number: u32, count: u32, words: u64) {
    begin_message(page, number);
    page.push_named(b"segments ", u64::from(count));
    page.push_named(b" words ", words);
    page.push_text(b"\n");
}

/// Appends the line of segment `s`, which has `words` words.
fn segment_line(page: &mut Page, s: u32, words: u32) {
    page.push_named(b"segment ", u64::from(s));
    page.push_named(b": ", u64::from(words));
    page.push_text(b"\n");
}

/// Appends the line for a message without a root word.
fn rootless_line(page: &mut Page) {
    page.push_text(b"root none\n");
}

/// Appends the line of a root word.
fn word_line(page: &mut Page, word: u64) {
    page.push_text(b"root ");
    page.push_hex(word);
    page.push_text(b"\n");
}

/// Appends the line of the root word, or of its absence.
fn root_line(page: &mut Page, root: Option<u64>) {
    match root {
        Some(word) => word_line(page, word),
        None => rootless_line(page),
    }
}

/// Puts on a page the line of each segment. If the page has no space for a line, it is written and
/// cleared first. After an error the output took a prefix of the page's old text and these lines.
fn put_segment_lines<O: ByteOut>(
    page: &mut Page,
    out: &mut O,
    outline: &Outline,
) -> Result<(), OutFault> {
    let sizes = outline.sizes();
    for s in 0..outline.count() {
        match make_space(page, out) {
            Ok(()) => segment_line(page, s, sizes[s as usize]),
            Err(fault) => return Err(fault),
        }
    }
    Ok(())
}

/// Puts on a page the line of the root word. If the page has no space for a line, it is written and
/// cleared first. After an error the output took a prefix of the page's old text and this line.
fn put_root_line<O: ByteOut>(
    page: &mut Page,
    out: &mut O,
    root: Option<u64>,
) -> Result<(), OutFault> {
    match make_space(page, out) {
        Ok(()) => {
            root_line(page, root);
            Ok(())
        }
        Err(fault) => Err(fault),
    }
}

/// Writes the segments of message `number`: their number and sizes, and the root word
/// (docs/output.md, segments). What the page held before isn't written.
///
/// # Errors
///
/// The error of the output, which took a prefix of the text.
pub fn write_segments<O: ByteOut>(
    page: &mut Page,
    out: &mut O,
    number: u32,
    outline: &Outline,
) -> Result<(), OutFault> {
    head_line(page, number, outline.count(), outline.words());
    match put_segment_lines(page, out, outline) {
        Ok(()) => {}
        Err(fault) => return Err(fault),
    }
    match put_root_line(page, out, outline.root()) {
        Ok(()) => write_page(page, out),
        Err(fault) => Err(fault),
    }
}
