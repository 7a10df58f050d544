// crates/cap_text/src/breaks.rt without its contracts, by tools/erase: that text is proved, this one is only tested.
//! The lines that explain why a stream breaks off.

use crate::cap_text::fault::{Cause, ExplainedFault, StreamBreak};
use crate::cap_text::fault_lines::{fault_text, TEXT};
use crate::cap_text::guess::{break_guess, push_guess_line, GUESS};
use crate::cap_text::page::{write_bytes, Page, CAPACITY};
use capvet_core::cap_buffer::DIGITS;
use capvet_core::cap_frame::{FrameFault, TableSums};
use capvet_core::cap_words::{ByteOut, OutFault};

/// The space for one line.
const LINE: usize = 128;

/// The most bytes of a sentence.
const SENTENCE: usize = 100;

/// The most bytes of a part of a sentence.
const PART: usize = 40;

/// The most bytes of a note on how bytes are counted.
const NOTE: usize = 20;

/// The space for all lines.
const LINES: usize = 5 * LINE;

/// The name of the input in which bytes are counted.
fn of_packed_input(packed: bool) -> &'static [u8] {
    if packed {
        b" of the packed input"
    } else {
        b" of the input"
    }
}

/// Appends where the message begins.
fn push_message_line(page: &mut Page, at: &StreamBreak) {
    page.push_named(b"  message at byte ", at.start);
    page.push_text(of_packed_input(at.packed));
    page.push_text(b"\n");
}

/// Appends what the table says, if it is whole.
fn push_table_line(page: &mut Page, table: Option<TableSums>) {
    if let Some(table) = table {
        page.push_named(b"  table segments ", u64::from(table.segments));
        page.push_named(b", words ", table.words);
        page.push_text(b"\n");
    }
}

/// How the bytes of the input are counted, if it is packed.
fn packed_note(packed: bool) -> &'static [u8] {
    if packed {
        b" packed"
    } else {
        b""
    }
}

/// How the bytes of a message are counted, if the input is packed.
fn unpacked_note(packed: bool) -> &'static [u8] {
    if packed {
        b" unpacked"
    } else {
        b""
    }
}

/// Appends how many bytes the whole message has, if its table is whole.
fn push_needed(page: &mut Page, packed: bool, table: Option<TableSums>) {
    if let Some(table) = table {
        page.push_named(b", needed ", table.bytes);
        page.push_text(unpacked_note(packed));
    }
}

/// Appends how many bytes of the message are there.
fn push_bytes_line(page: &mut Page, byte: u64, at: &StreamBreak) {
    page.push_named(b"  bytes there ", byte.saturating_sub(at.start));
    page.push_text(packed_note(at.packed));
    push_needed(page, at.packed, at.table);
    page.push_text(b"\n");
}

/// Appends the segments that are too many.
fn push_many_line(page: &mut Page, count: u64) {
    page.push_named(b"  segments ", count);
    page.push_text(b", limit 512\n");
}

/// Appends the words that are too many.
fn push_large_line(page: &mut Page, words: u64, limit: u64) {
    page.push_named(b"  words ", words);
    page.push_named(b", limit ", limit);
    page.push_text(b"\n");
}

/// The part of the message in which the input ends.
fn cut_part(table: Option<TableSums>) -> &'static [u8] {
    match table {
        None => b"the input ends inside the segment table",
        Some(_) => b"the input ends inside the segments",
    }
}

/// What is cut then, of an input that is packed or not.
fn cut_place(packed: bool, is_cut: bool) -> &'static [u8] {
    match (packed, is_cut) {
        (false, false) => b", between two words",
        (false, true) => b", and inside a word",
        (true, false) => b", between two packed groups",
        (true, true) => b", and inside a packed group",
    }
}

/// Appends the line of the reason.
fn push_reason_line(page: &mut Page, sentence: &[u8]) {
    page.push_text(b"  reason ");
    page.push_text(sentence);
    page.push_text(b"\n");
}

/// Appends where the input ends, as the reason.
fn push_cut_line(page: &mut Page, at: &StreamBreak) {
    page.push_text(b"  reason ");
    page.push_text(cut_part(at.table));
    page.push_text(cut_place(at.packed, at.is_cut));
    page.push_text(b"\n");
}

/// Appends the lines of a message that is cut short at a byte.
fn push_cut_lines(page: &mut Page, byte: u64, at: &StreamBreak) {
    push_bytes_line(page, byte, at);
    push_cut_line(page, at);
}

/// Appends the lines of a message that can't be read, after a line or more.
fn push_break_lines(page: &mut Page, fault: FrameFault, at: &StreamBreak) {
    match fault {
        FrameFault::TooManySegments { count } => {
            push_message_line(page, at);
            push_many_line(page, count);
            push_reason_line(
                page,
                b"the first word of the message says more segments than a message may have",
            );
        }
        FrameFault::TooLarge { words } => {
            push_message_line(page, at);
            push_table_line(page, at.table);
            push_large_line(page, words, at.limit);
            push_reason_line(
                page,
                b"the segments together have more words than the limit allows",
            );
        }
        FrameFault::Truncated { byte } => {
            push_message_line(page, at);
            push_table_line(page, at.table);
            push_cut_lines(page, byte, at);
        }
        FrameFault::Device => {}
        FrameFault::Memory => {}
        FrameFault::Spent => {}
    }
}

/// Appends the lines on a message that can't be read, and the line of a guess.
fn push_guessed_lines(page: &mut Page, message: u32, fault: FrameFault, at: &StreamBreak) {
    push_break_lines(page, fault, at);
    push_guess_line(page, break_guess(message, fault, at));
}

/// Appends the lines by why an engine ended at a message.
fn push_cause_lines(page: &mut Page, message: u32, cause: Cause, at: &StreamBreak) {
    match cause {
        Cause::Frame(fault) => push_guessed_lines(page, message, fault, at),
        Cause::TooManyMessages => {}
        Cause::Output(_) => {}
        Cause::Refused(_) => {}
        Cause::NotStrict(_) => {}
        Cause::Canon(_) => {}
        Cause::Memory => {}
    }
}

/// The line of a fault, and the lines that explain it.
fn explained_text(fault: &ExplainedFault) -> Page {
    let mut page = fault_text(&fault.fault);
    push_cause_lines(&mut page, fault.fault.message, fault.fault.cause, &fault.at);
    page
}

/// Writes the line of an error that ended a run, as [`write_fault`](crate::write_fault) does, and
/// after it the lines that explain why the stream breaks off (docs/output.md, explain). If the input
/// looks like one of another format, the last line says which, as a guess. Allocates nothing.
///
/// # Errors
///
/// Those of [`write_fault`](crate::write_fault). The output took a prefix of the lines.
pub fn write_explained_fault<E: ByteOut>(
    err: &mut E,
    fault: &ExplainedFault,
) -> Result<(), OutFault> {
    write_bytes(err, explained_text(fault).text())
}
