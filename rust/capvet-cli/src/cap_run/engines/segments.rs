// crates/cap_run/src/engines/segments.rt without its contracts, by tools/erase: that text is proved, this one is only tested.
//! The engine that writes how each message is cut into segments.

use crate::cap_run::engines::reading::no_break;
use crate::cap_run::engines::stream::{print_all, Counted, Engine};
use crate::cap_run::settings::{Outcome, Settings};
use crate::cap_run::waiting::{FlushNever, Flushing};
use crate::cap_text::{write_segments, Cause, Page, RunFault, StreamBreak};
use capvet_core::cap_frame::{read_outline, Outline, SizeLimit};
use capvet_core::cap_words::{ByteOut, WordSource};

/// The outline of the message that was read last, and the page for its text.
struct OutlineBuffers {
    outline: Outline,
    page: Page,
}

/// Writes the segments of each message. The outline of a message is enough for that.
#[derive(Clone, Copy)]
struct SegmentsEngine;

impl Engine for SegmentsEngine {
    type Buffers = OutlineBuffers;

    fn buffers(&self) -> OutlineBuffers {
        OutlineBuffers {
            outline: Outline::new(),
            page: Page::new(),
        }
    }

    fn print_next<S: WordSource, O: ByteOut>(
        &self,
        buffers: &mut OutlineBuffers,
        source: &mut S,
        out: &mut O,
        limit: SizeLimit,
        _before: u64,
        number: u32,
        _at: &mut StreamBreak,
    ) -> Result<Option<(Counted, u64)>, Cause> {
        match read_outline(source, limit, &mut buffers.outline) {
            Ok(true) => match write_segments(&mut buffers.page, out, number, &buffers.outline) {
                Ok(()) => Ok(Some((Counted::Accepted, 0))),
                Err(fault) => Err(Cause::Output(fault)),
            },
            Ok(false) => Ok(None),
            Err(fault) => Err(Cause::Frame(fault)),
        }
    }
}

/// Does what [`run_segments_with`] does, without a flush.
///
/// # Errors
///
/// Those of [`run_segments_with`].
pub fn run_segments<S: WordSource, O: ByteOut>(
    source: &mut S,
    out: &mut O,
    settings: &Settings,
) -> Result<Outcome, RunFault> {
    run_segments_with(source, out, settings, &FlushNever)
}

/// Reads the messages of a stream to its end, and writes for each its segments, their sizes in
/// words and the root word (encoding: Serialization Over a Stream). The messages aren't vetted.
///
/// The text of a message is written before the next message is read, and flushed as `flushing`
/// says. The words of a message aren't held, and nothing is allocated.
///
/// # Errors
///
/// The error names the message at which the run ended, counted from 0. The texts of all messages
/// before it were written, and no message after it was read.
///
/// - [`Cause::TooManyMessages`](crate::Cause::TooManyMessages): the stream has more than
///   `settings.messages` messages.
/// - [`Cause::Frame`](crate::Cause::Frame): the message can't be read within `settings.size`, see
///   [`FrameFault`](cap_frame::FrameFault). It is never
///   [`FrameFault::Memory`](cap_frame::FrameFault::Memory).
/// - [`Cause::Output`](crate::Cause::Output): the output failed as the text was written or flushed.
///   It took a prefix of the text, or all of it.
pub fn run_segments_with<S: WordSource, O: ByteOut, F: Flushing<S>>(
    source: &mut S,
    out: &mut O,
    settings: &Settings,
    flushing: &F,
) -> Result<Outcome, RunFault> {
    print_all(
        source,
        out,
        settings,
        &SegmentsEngine,
        &mut no_break(false),
        flushing,
    )
}
