// crates/cap_run/src/engines/single.rt without its contracts, by tools/erase: that text is proved, this one is only tested.
//! Reading an input that has to be exactly one message.

use crate::cap_run::engines::passing::{write_frame, FrameBuffers};
use crate::cap_run::engines::reading::{no_break, read_next};
use crate::cap_run::settings::ExplainSettings;
use crate::cap_text::{Cause, ExplainedFault, RunFault, SingleFault, StreamBreak};
use capvet_core::cap_frame::{ByteMessage, ByteView, FrameFault, Segments};
use capvet_core::cap_words::{ByteOut, SourceFault, VecOut, WordSource};
use capvet_core::rattle::alloc::Global;

/// The bytes of a message's frame, with zero padding. `None` if an allocation failed.
fn frame_of<'b>(alloc: Global, message: &ByteView<'b>) -> Option<VecOut> {
    let mut frame = VecOut::new(alloc);
    match write_frame(&mut frame, message, &mut FrameBuffers::new()) {
        Ok(()) => Some(frame),
        Err(_) => None,
    }
}

/// The fault at a message, and what is known of the message.
fn stopped_at(message: u32, cause: Cause, at: StreamBreak) -> ExplainedFault {
    ExplainedFault {
        fault: RunFault { message, cause },
        at,
    }
}

/// Reads the first message of an input, and gives the bytes of its frame: its table with zero
/// padding, and its segments as they came (encoding: Serialization Over a Stream). The source is
/// then just after the message. `None` if the input ends before a message.
///
/// Allocates to hold the message, and then its frame: eight bytes for each word of both. The message
/// is freed before the return.
///
/// # Errors
///
/// The error names message 0, and has what is known of a message that can't be read.
///
/// - [`Cause::Frame`]: the message can't be read within `settings.size`, see
///   [`FrameFault`](cap_frame::FrameFault).
/// - [`Cause::Memory`]: the message was read, and the allocation of its frame failed.
pub fn read_single<S: WordSource>(
    alloc: Global,
    source: &mut S,
    settings: &ExplainSettings,
) -> Result<Option<VecOut>, ExplainedFault> {
    let mut message = ByteMessage::blank(alloc);
    let mut at = no_break(settings.packed);
    match read_next(alloc, source, settings.size, &mut message, &mut at) {
        Ok(true) => match frame_of(alloc, &message.view()) {
            Some(frame) => Ok(Some(frame)),
            None => Err(stopped_at(0, Cause::Memory, at)),
        },
        Ok(false) => Ok(None),
        Err(fault) => Err(stopped_at(0, Cause::Frame(fault), at)),
    }
}

/// Checks that the input ends here, after its first message. It reads at most one word.
///
/// # Errors
///
/// - [`SingleFault::Trailing`]: there is at least one more byte. The error has the position before
///   the call.
/// - [`SingleFault::Run`]: reading failed, or an earlier error had closed the source. The error
///   names message 1.
pub fn end_single<S: WordSource>(source: &mut S) -> Result<(), SingleFault> {
    let byte = source.position();
    match source.next() {
        Ok(None) => Ok(()),
        Ok(Some(_)) => Err(SingleFault::Trailing { byte }),
        Err(SourceFault::Truncated { byte: _ }) => Err(SingleFault::Trailing { byte }),
        Err(SourceFault::Device) => Err(SingleFault::Run(RunFault {
            message: 1,
            cause: Cause::Frame(FrameFault::Device),
        })),
        Err(SourceFault::Spent) => Err(SingleFault::Run(RunFault {
            message: 1,
            cause: Cause::Frame(FrameFault::Spent),
        })),
    }
}
