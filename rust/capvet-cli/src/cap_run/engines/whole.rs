// crates/cap_run/src/engines/whole.rt without its contracts, by tools/erase: that text is proved, this one is only tested.
//! Reading each message of a stream whole, and writing its text.

use crate::cap_run::engines::reading::{no_break, read_next};
use crate::cap_run::engines::stream::{print_all, Counted, Engine};
use crate::cap_run::settings::{ExplainSettings, Outcome, Settings};
use crate::cap_run::waiting::Flushing;
use crate::cap_text::{Cause, ExplainedFault, Page, RunFault, StreamBreak};
use capvet_core::cap_explain::frame_words;
use capvet_core::cap_frame::{ByteMessage, Segments, SizeLimit};
use capvet_core::cap_words::{ByteOut, WordSource};
use capvet_core::rattle::alloc::Global;

/// What an engine writes about a message that was read.
pub(crate) trait MessagePrinter {
    /// Writes the text of a message. What the page held before isn't written.
    ///
    /// # Errors
    ///
    /// - [`Cause::Output`]: the output failed. It took a prefix of the text.
    /// - [`Cause::Memory`]: an allocation failed. The output took nothing.
    fn print_message<M: Segments, O: ByteOut>(
        &self,
        page: &mut Page,
        out: &mut O,
        before: u64,
        number: u32,
        message: &M,
    ) -> Result<Counted, Cause>;
}

/// The message that was read last, and the page for its text.
pub(crate) struct MessageBuffers {
    message: ByteMessage,
    page: Page,
}

/// Reads each message whole, and writes its text.
#[derive(Clone, Copy)]
struct Whole<P> {
    alloc: Global,
    /// Whether the words before each message are counted. Otherwise 0 stands for them.
    counts: bool,
    printer: P,
}

impl<P: MessagePrinter> Engine for Whole<P> {
    type Buffers = MessageBuffers;

    fn buffers(&self) -> MessageBuffers {
        MessageBuffers {
            message: ByteMessage::blank(self.alloc),
            page: Page::new(),
        }
    }

    #[inline(always)]
    fn print_next<S: WordSource, O: ByteOut>(
        &self,
        buffers: &mut MessageBuffers,
        source: &mut S,
        out: &mut O,
        limit: SizeLimit,
        before: u64,
        number: u32,
        at: &mut StreamBreak,
    ) -> Result<Option<(Counted, u64)>, Cause> {
        match read_next(self.alloc, source, limit, &mut buffers.message, at) {
            Ok(true) => {
                let message = buffers.message.view();
                let (place, words) = place_of(self.counts, before, &message);
                match self
                    .printer
                    .print_message(&mut buffers.page, out, place, number, &message)
                {
                    Ok(counted) => Ok(Some((counted, words))),
                    Err(cause) => Err(cause),
                }
            }
            Ok(false) => Ok(None),
            Err(fault) => Err(Cause::Frame(fault)),
        }
    }
}

/// The words of the stream before a message, and those of its frame. Both are 0 if they aren't
/// counted.
fn place_of<M: Segments>(counts: bool, before: u64, message: &M) -> (u64, u64) {
    if counts {
        return (before, frame_words(message));
    }
    (0, 0)
}

/// Reads each message of a stream whole, and writes the text that comes of it, wherever the message
/// begins.
pub(crate) fn print_messages<S: WordSource, O: ByteOut, P: MessagePrinter, F: Flushing<S>>(
    alloc: Global,
    source: &mut S,
    out: &mut O,
    settings: &Settings,
    printer: P,
    flushing: &F,
) -> Result<Outcome, RunFault> {
    let engine = Whole {
        alloc,
        counts: false,
        printer,
    };
    print_all(
        source,
        out,
        settings,
        &engine,
        &mut no_break(false),
        flushing,
    )
}

/// Reads each message of a stream whole, and writes the text that comes of it, by where in the input
/// the message begins. The error says what is known of a message that can't be read.
pub(crate) fn explain_messages<S: WordSource, O: ByteOut, P: MessagePrinter, F: Flushing<S>>(
    alloc: Global,
    source: &mut S,
    out: &mut O,
    settings: &ExplainSettings,
    printer: P,
    flushing: &F,
) -> Result<Outcome, ExplainedFault> {
    let engine = Whole {
        alloc,
        counts: true,
        printer,
    };
    let run = Settings {
        limits: settings.limits,
        size: settings.size,
        messages: settings.messages,
    };
    let mut at = no_break(settings.packed);
    match print_all(source, out, &run, &engine, &mut at, flushing) {
        Ok(outcome) => Ok(outcome),
        Err(fault) => Err(ExplainedFault { fault, at }),
    }
}
