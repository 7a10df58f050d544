// crates/cap_text/src/page.rt without its contracts, by tools/erase: that text is proved, this one is only tested.
//! The page: a buffer in which lines are put together before they are written to an output.

use capvet_core::cap_buffer::TextBuffer;
use capvet_core::cap_words::{write_all, ByteOut, OutFault};

/// The capacity of a page in bytes. It holds the lines of most messages.
pub(crate) const CAPACITY: usize = 4096;

/// The space for one line, in bytes. The longest line has the spaces of 257 levels and then the
/// head of a node. Without spaces, the longest has five numbers and the text between them.
pub(crate) const LINE: usize = 768;

/// The space for the number of a message, with the text around it.
pub(crate) const NUMBER: usize = 30;

/// Lines that aren't written yet, in a buffer of 4096 bytes. A caller keeps one page for many texts.
pub type Page = TextBuffer<CAPACITY>;

/// Appends which message a line is about: `message `, its number, and a colon.
#[inline]
pub(crate) fn push_message(page: &mut Page, number: u32) {
    page.push_named(b"message ", u64::from(number));
    page.push_text(b": ");
}

/// Begins the page with which message its lines are about.
#[inline]
pub(crate) fn begin_message(page: &mut Page, number: u32) {
    page.clear();
    push_message(page, number);
}

/// Begins the page with a line on a message.
pub(crate) fn message_line(page: &mut Page, number: u32, text: &[u8]) {
    begin_message(page, number);
    page.push_text(text);
    page.push_text(b"\n");
}

/// Writes a text that isn't empty. After an error the output took a prefix of it.
pub(crate) fn write_bytes<O: ByteOut>(out: &mut O, text: &[u8]) -> Result<(), OutFault> {
    write_all(out, text)
}

/// Makes space on a page for a line of 768 bytes: if there isn't enough, writes the page and clears
/// it.
#[inline]
pub(crate) fn make_space<O: ByteOut>(page: &mut Page, out: &mut O) -> Result<(), OutFault> {
    if page.len() <= CAPACITY - LINE {
        return Ok(());
    }
    turn(page, out)
}

// Writes the text of a page, and clears the page.
#[cold]
#[inline(never)]
fn turn<O: ByteOut>(page: &mut Page, out: &mut O) -> Result<(), OutFault> {
    match write_bytes(out, page.text()) {
        Ok(()) => {
            page.clear();
            Ok(())
        }
        Err(fault) => Err(fault),
    }
}

/// Writes the end of a text, which is on a page. The whole text isn't empty. After an error the
/// output took a prefix of the whole text.
pub(crate) fn write_page<O: ByteOut>(page: &Page, out: &mut O) -> Result<(), OutFault> {
    if page.is_empty() {
        return Ok(());
    }
    write_bytes(out, page.text())
}
