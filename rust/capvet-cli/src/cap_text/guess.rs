// crates/cap_text/src/guess.rt without its contracts, by tools/erase: that text is proved, this one is only tested.
//! What an input may be that is no framed stream.

use crate::cap_text::fault::{Cause, RunFault, StreamBreak};
use crate::cap_text::fault_lines::fault_text;
use crate::cap_text::page::{write_bytes, Page, CAPACITY};
use capvet_core::cap_frame::FrameFault;
use capvet_core::cap_words::{bits, ByteOut, OutFault};

/// The space for the line of a guess.
pub(crate) const GUESS: usize = 80;

/// The most bytes of what is said of a guess.
const SAID: usize = 60;

/// What an input may be that is no framed stream.
#[derive(Clone, Copy)]
pub(crate) enum Guess {
    /// Bytes that gzip compressed.
    Gzip,
    /// Records of TLS.
    Tls,
    /// Text.
    Text,
    /// A packed stream that is read as it is.
    Packed,
    /// A stream that isn't packed and is read as packed.
    Plain,
}

/// Bytes begin as those of gzip. Here and below they are the first four, as a number.
fn is_gzip(first: u64) -> bool {
    bits(first, 0, 24) == 559903
}

/// Bytes begin as a record of TLS.
fn is_tls(first: u64) -> bool {
    let kind = bits(first, 0, 8);
    (kind > 19 && kind < 24) && (bits(first, 8, 8) == 3 && bits(first, 16, 8) < 5)
}

/// A byte is one of text.
fn is_text_byte(byte: u64) -> bool {
    (byte == 9 || (byte == 10 || byte == 13)) || (byte > 31 && byte < 127)
}

/// Bytes begin as a packed table and root pointer that are bytes of text too.
fn is_packed_root(first: u64) -> bool {
    bits(first, 0, 8) == 48 && bits(first, 24, 8) == 80
}

/// Bytes begin as text.
fn is_text(first: u64) -> bool {
    if is_packed_root(first) {
        return false;
    }
    (is_text_byte(bits(first, 0, 8)) && is_text_byte(bits(first, 8, 8)))
        && (is_text_byte(bits(first, 16, 8)) && is_text_byte(bits(first, 24, 8)))
}

/// Bytes begin as a packed segment table.
fn looks_packed(first: u64) -> bool {
    (bits(first, 1, 3) == 0 && bits(first, 7, 1) == 0)
        && (bits(first, 4, 3) > 0 && bits(first, 8, 8) > 0)
}

/// What an input may be that is read as it is.
fn plain_guess(first: u64) -> Option<Guess> {
    if is_gzip(first) {
        Some(Guess::Gzip)
    } else if is_tls(first) {
        Some(Guess::Tls)
    } else if is_text(first) {
        Some(Guess::Text)
    } else if looks_packed(first) {
        Some(Guess::Packed)
    } else {
        None
    }
}

/// Bytes of gzip were unpacked.
fn is_unpacked_gzip(first: u64) -> bool {
    bits(first, 0, 16) == 2187
}

/// A handshake of TLS was unpacked.
fn is_unpacked_tls(first: u64) -> bool {
    bits(first, 0, 16) == 768 && bits(first, 16, 16) < 5
}

/// What an input may be that is read as packed.
fn unpacked_guess(first: u64) -> Option<Guess> {
    if is_unpacked_gzip(first) {
        Some(Guess::Gzip)
    } else if is_unpacked_tls(first) {
        Some(Guess::Tls)
    } else {
        None
    }
}

/// What an input may be whose first four bytes say so many segments.
fn count_guess(packed: bool, count: u64) -> Option<Guess> {
    let first = count.saturating_sub(1);
    if packed {
        unpacked_guess(first)
    } else {
        plain_guess(first)
    }
}

/// Whether an input that is read as packed may not be so, by the byte at which a message begins.
fn few_guess(packed: bool, message: u32, start: u64) -> Option<Guess> {
    if packed && start < 4 * u64::from(message) {
        Some(Guess::Plain)
    } else {
        None
    }
}

/// The guess where a message can't be read, by what is known of it.
pub(crate) fn break_guess(message: u32, fault: FrameFault, at: &StreamBreak) -> Option<Guess> {
    match fault {
        FrameFault::TooManySegments { count } => {
            if message == 0 {
                count_guess(at.packed, count)
            } else {
                few_guess(at.packed, message, at.start)
            }
        }
        FrameFault::TooLarge { words: _ } => few_guess(at.packed, message, at.start),
        FrameFault::Truncated { byte: _ } => few_guess(at.packed, message, at.start),
        FrameFault::Device => None,
        FrameFault::Memory => None,
        FrameFault::Spent => None,
    }
}

/// The last byte at which a message may begin, if a word of its table was read and no byte after
/// this place.
fn latest_start(place: u64) -> u64 {
    place.saturating_sub(2)
}

/// The guess where a message can't be read, if it isn't known where it begins. No byte of the input
/// after this place was read.
fn frame_guess(packed: bool, place: u64, message: u32, fault: FrameFault) -> Option<Guess> {
    match fault {
        FrameFault::TooManySegments { count } => {
            if message == 0 {
                count_guess(packed, count)
            } else {
                few_guess(packed, message, latest_start(place))
            }
        }
        FrameFault::TooLarge { words: _ } => few_guess(packed, message, latest_start(place)),
        FrameFault::Truncated { byte } => few_guess(packed, message, byte),
        FrameFault::Device => None,
        FrameFault::Memory => None,
        FrameFault::Spent => None,
    }
}

/// The guess where an engine ended.
fn cause_guess(packed: bool, place: u64, message: u32, cause: Cause) -> Option<Guess> {
    match cause {
        Cause::Frame(fault) => frame_guess(packed, place, message, fault),
        Cause::TooManyMessages => None,
        Cause::Output(_) => None,
        Cause::Refused(_) => None,
        Cause::NotStrict(_) => None,
        Cause::Canon(_) => None,
        Cause::Memory => None,
    }
}

/// What is said of a guess.
fn guess_text(guess: Guess) -> &'static [u8] {
    match guess {
        Guess::Gzip => b"the input looks like gzip: decompress it first",
        Guess::Tls => b"the input looks like TLS: decrypt it first",
        Guess::Text => b"the input looks like text",
        Guess::Packed => b"the input looks packed: try --packed",
        Guess::Plain => b"the input looks unpacked: try it without --packed",
    }
}

/// Appends the line of a guess, if there is one.
pub(crate) fn push_guess_line(page: &mut Page, guess: Option<Guess>) {
    if let Some(guess) = guess {
        page.push_text(b"capvet: ");
        page.push_text(guess_text(guess));
        page.push_text(b"\n");
    }
}

/// The line of a fault, and the line of a guess.
fn guessed_text(fault: &RunFault, packed: bool, place: u64) -> Page {
    let mut page = fault_text(fault);
    let guess = cause_guess(packed, place, fault.message, fault.cause);
    push_guess_line(&mut page, guess);
    page
}

/// Writes the line of an error that ended a run, as [`write_fault`](crate::write_fault) does. If the
/// input looks like one of another format, a line after it says which, as a guess (docs/output.md,
/// Standard error). `packed` says whether the input was read as packed, and `place` how many bytes of
/// it were read. Allocates nothing.
///
/// # Errors
///
/// Those of [`write_fault`](crate::write_fault). The output took a prefix of the lines.
pub fn write_guessed_fault<E: ByteOut>(
    err: &mut E,
    fault: &RunFault,
    packed: bool,
    place: u64,
) -> Result<(), OutFault> {
    write_bytes(err, guessed_text(fault, packed, place).text())
}
