// crates/cap_text/src/fault_lines.rt without its contracts, by tools/erase: that text is proved, this one is only tested.
//! The lines of faults.

use crate::cap_text::fault::{Cause, CopyFault, RunFault, SingleFault};
use crate::cap_text::page::{push_message, write_bytes, Page, CAPACITY, NUMBER};
use crate::cap_text::verdict::{name_of, push_place, push_refused, refused_for, FAULT};
use capvet_core::cap_frame::FrameFault;
use capvet_core::cap_spec::CanonFault;
use capvet_core::cap_words::{ByteOut, OutFault, SourceFault};

/// Appends the text for a message that can't be read.
fn push_frame_fault(page: &mut Page, fault: FrameFault) {
    match fault {
        FrameFault::TooManySegments { count } => page.push_named(b"TooManySegments ", count),
        FrameFault::TooLarge { words } => page.push_named(b"TooLarge ", words),
        FrameFault::Truncated { byte } => page.push_named(b"Truncated at byte ", byte),
        FrameFault::Device => page.push_text(b"Device"),
        FrameFault::Memory => page.push_text(b"Memory"),
        FrameFault::Spent => page.push_text(b"Spent"),
    }
}

/// Appends the text for a message without a canonical copy.
fn push_canon_fault(page: &mut Page, fault: CanonFault) {
    match fault {
        CanonFault::HasCapability { segment, word } => {
            page.push_text(b"HasCapability");
            push_place(page, segment, word);
        }
        CanonFault::Memory => page.push_text(b"Memory"),
    }
}

/// Appends the text for an engine that ended at a message.
fn push_cause(page: &mut Page, number: u32, cause: Cause) {
    match cause {
        Cause::TooManyMessages => {
            push_message(page, number);
            page.push_text(b"TooManyMessages");
        }
        Cause::Frame(fault) => {
            push_message(page, number);
            push_frame_fault(page, fault);
        }
        Cause::Output(_) => page.push_text(b"output failed"),
        Cause::Refused(refusal) => {
            push_message(page, number);
            push_refused(page, name_of(refusal.reason), refusal.segment, refusal.word);
        }
        Cause::NotStrict(refusal) => {
            push_message(page, number);
            let refused = refused_for(&refusal);
            push_refused(page, refused.name, refused.segment, refused.word);
        }
        Cause::Canon(fault) => {
            push_message(page, number);
            push_canon_fault(page, fault);
        }
        Cause::Memory => {
            push_message(page, number);
            page.push_text(b"Memory");
        }
    }
}

/// The space for the line of a fault.
pub(crate) const TEXT: usize = NUMBER + FAULT + 9;

/// The line of a fault.
pub(crate) fn fault_text(fault: &RunFault) -> Page {
    let mut page = Page::new();
    page.push_text(b"capvet: ");
    push_cause(&mut page, fault.message, fault.cause);
    page.push_text(b"\n");
    page
}

/// Writes the line of an error that ended a run (docs/output.md, Standard error). Allocates
/// nothing.
///
/// # Errors
///
/// The error of the output, which took a prefix of the line.
///
/// - [`OutFault::Device`]: the device failed. After it every write with bytes returns `Spent`.
/// - [`OutFault::Memory`]: an allocation of the output failed. A later write may succeed.
/// - [`OutFault::Spent`]: an earlier error had closed the output. It took nothing.
pub fn write_fault<E: ByteOut>(err: &mut E, fault: &RunFault) -> Result<(), OutFault> {
    write_bytes(err, fault_text(fault).text())
}

/// The line for an input without a message.
fn no_message_text() -> Page {
    let mut page = Page::new();
    page.push_text(b"capvet: no message\n");
    page
}

/// The line for an input that goes on after its first message.
fn trailing_text(byte: u64) -> Page {
    let mut page = Page::new();
    page.push_named(b"capvet: message 1: Trailing at byte ", byte);
    page.push_text(b"\n");
    page
}

/// Writes the line for an input that isn't exactly one message (docs/output.md, Standard error).
/// Allocates nothing.
///
/// # Errors
///
/// The error of the output, which took a prefix of the line.
///
/// - [`OutFault::Device`]: the device failed. After it every write with bytes returns `Spent`.
/// - [`OutFault::Memory`]: an allocation of the output failed. A later write may succeed.
/// - [`OutFault::Spent`]: an earlier error had closed the output. It took nothing.
pub fn write_single_fault<E: ByteOut>(err: &mut E, fault: &SingleFault) -> Result<(), OutFault> {
    match fault {
        SingleFault::NoMessage => write_bytes(err, no_message_text().text()),
        SingleFault::Trailing { byte } => write_bytes(err, trailing_text(*byte).text()),
        SingleFault::Run(fault) => write_fault(err, fault),
    }
}

/// Appends the text for a source that gave no word.
fn push_source_fault(page: &mut Page, fault: SourceFault) {
    match fault {
        SourceFault::Truncated { byte } => page.push_named(b"Truncated at byte ", byte),
        SourceFault::Device => page.push_text(b"Device"),
        SourceFault::Spent => page.push_text(b"Spent"),
    }
}

/// Appends the text for a copy of words that ended early.
fn push_copy_fault(page: &mut Page, fault: CopyFault) {
    match fault {
        CopyFault::TooManyWords => page.push_text(b"TooManyWords"),
        CopyFault::Source(fault) => push_source_fault(page, fault),
        CopyFault::Output(_) => page.push_text(b"output failed"),
    }
}

/// The line of a fault of a copy.
fn copy_fault_text(fault: &CopyFault) -> Page {
    let mut page = Page::new();
    page.push_text(b"capvet: ");
    push_copy_fault(&mut page, *fault);
    page.push_text(b"\n");
    page
}

/// Writes the line of an error that ended a copy of words (docs/output.md, Standard error).
/// Allocates nothing.
///
/// # Errors
///
/// The error of the output, which took a prefix of the line.
///
/// - [`OutFault::Device`]: the device failed. After it every write with bytes returns `Spent`.
/// - [`OutFault::Memory`]: an allocation of the output failed. A later write may succeed.
/// - [`OutFault::Spent`]: an earlier error had closed the output. It took nothing.
pub fn write_copy_fault<E: ByteOut>(err: &mut E, fault: &CopyFault) -> Result<(), OutFault> {
    write_bytes(err, copy_fault_text(fault).text())
}
