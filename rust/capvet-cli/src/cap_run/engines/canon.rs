// crates/cap_run/src/engines/canon.rt without its contracts, by tools/erase: that text is proved, this one is only tested.
//! The engine that puts the canonical copy of each message to a sink.

use capvet_core::rattle::Vec;

use crate::cap_run::engines::reading::{end_stream, no_break};
use crate::cap_run::fault::output_fault;
use crate::cap_run::settings::{Outcome, Settings};
use crate::cap_run::waiting::{flush_sink, FlushNever, Flushing, AHEAD};
use crate::cap_text::{Cause, RunFault};
use capvet_core::cap_canon::canonical_over;
use capvet_core::cap_frame::{read_into, ByteMessage, Segments};
use capvet_core::cap_spec::StrictRefusal;
use capvet_core::cap_vet::{vet_with, Demands, Limits};
use capvet_core::cap_words::{SinkFault, WordSink, WordSource};
use capvet_core::rattle::alloc::Global;

/// The table of a message of one segment, which has `words` words: the number of segments less one
/// in the low half, and the size in the high half (encoding: Serialization Over a Stream).
fn table_of_one(words: u64) -> u64 {
    words * 0x1_0000_0000
}

/// Puts the words of these bytes as a framed message of one segment: the table, and then all words
/// in one call (encoding: Serialization Over a Stream).
fn put_framed<K: WordSink>(sink: &mut K, copy: &[u8]) -> Result<(), SinkFault> {
    if let Err(fault) = sink.put(table_of_one(copy.len() as u64 / 8)) {
        return Err(fault);
    }
    if let Err(fault) = sink.put_bytes(copy) {
        return Err(fault);
    }
    Ok(())
}

/// The cause if a message doesn't meet the demands.
fn refused_by(refusal: StrictRefusal) -> Cause {
    match refusal {
        StrictRefusal::Refused(refusal) => Cause::Refused(refusal),
        StrictRefusal::ManySegments | StrictRefusal::Pointer { .. } => Cause::NotStrict(refusal),
    }
}

/// Vets a message under demands, writes its canonical copy over the buffer of the last one, and puts
/// it to the sink. If the message doesn't meet them, or no copy can be made, nothing is put.
fn put_copy<K: WordSink, M: Segments>(
    alloc: Global,
    sink: &mut K,
    message: &M,
    copy: &mut Vec<u8>,
    limits: Limits,
    demands: Demands,
) -> Result<(), Cause> {
    let vetted = match vet_with(message, limits, demands) {
        Ok(vetted) => vetted,
        Err(refusal) => return Err(refused_by(refusal)),
    };
    let count = match canonical_over(alloc, &vetted, copy) {
        Ok(count) => count,
        Err(fault) => return Err(Cause::Canon(fault)),
    };
    match put_framed(sink, &copy[..count]) {
        Ok(()) => Ok(()),
        Err(fault) => Err(Cause::Output(output_fault(fault))),
    }
}

/// The buffers of a run, which are filled again at each message.
struct CanonBuffers {
    /// The message that was read last.
    message: ByteMessage,
    /// Its copy.
    copy: Vec<u8>,
    /// A place for words that are looked at ahead.
    ahead: [u8; AHEAD],
}

/// Reads the next message into the buffer of the last one, and puts its copy, for which there is a
/// buffer too. `false` if the stream ends before it.
fn put_next<S: WordSource, K: WordSink, F: Flushing<S>>(
    alloc: Global,
    buffers: &mut CanonBuffers,
    source: &mut S,
    sink: &mut K,
    settings: &Settings,
    demands: Demands,
    flushing: &F,
) -> Result<bool, Cause> {
    let (limits, size) = (settings.limits, settings.size);
    match read_into(alloc, source, size, &mut buffers.message) {
        Ok(true) => {
            let view = buffers.message.view();
            if let Err(cause) = put_copy(alloc, sink, &view, &mut buffers.copy, limits, demands) {
                return Err(cause);
            }
            let waits = flushing.before_message(source, size, &mut buffers.ahead);
            match flush_sink(sink, waits) {
                Ok(()) => Ok(true),
                Err(fault) => Err(Cause::Output(output_fault(fault))),
            }
        }
        Ok(false) => Ok(false),
        Err(fault) => Err(Cause::Frame(fault)),
    }
}

/// Puts the copies of the messages of a stream. Returns how many were put, and why there were no
/// more. The sink isn't finished yet.
fn put_copies<S: WordSource, K: WordSink, F: Flushing<S>>(
    alloc: Global,
    source: &mut S,
    sink: &mut K,
    settings: &Settings,
    demands: Demands,
    flushing: &F,
) -> (u32, Result<(), Cause>) {
    let mut buffers = CanonBuffers {
        message: ByteMessage::blank(alloc),
        copy: Vec::new(alloc),
        ahead: [0; AHEAD],
    };
    for number in 0..settings.messages {
        match put_next(
            alloc,
            &mut buffers,
            source,
            sink,
            settings,
            demands,
            flushing,
        ) {
            Ok(true) => {}
            Ok(false) => return (number, Ok(())),
            Err(cause) => return (number, Err(cause)),
        }
    }
    let end = end_stream(source, settings.size, &mut no_break(false));
    (settings.messages, end)
}

/// Whether the output didn't fail, so that the sink has still to be finished.
fn without_fault(end: &Result<(), Cause>) -> bool {
    match end {
        Err(Cause::Output(_)) => false,
        _ => true,
    }
}

/// Puts the copies of the messages of a stream, and finishes the sink unless the output failed.
fn make_copies<S: WordSource, K: WordSink, F: Flushing<S>>(
    alloc: Global,
    source: &mut S,
    sink: &mut K,
    settings: &Settings,
    demands: Demands,
    flushing: &F,
) -> (u32, Result<(), Cause>) {
    let (messages, end) = put_copies(alloc, source, sink, settings, demands, flushing);
    if without_fault(&end) {
        if let Err(fault) = sink.finish() {
            return (messages, Err(Cause::Output(output_fault(fault))));
        }
    }
    (messages, end)
}

/// Does what [`run_canon_with`] does, without demands and without a flush.
///
/// # Errors
///
/// Those of [`run_canon_with`], without [`Cause::NotStrict`].
pub fn run_canon<S: WordSource, K: WordSink>(
    alloc: Global,
    source: &mut S,
    sink: &mut K,
    settings: &Settings,
) -> Result<Outcome, RunFault> {
    run_canon_with(
        alloc,
        source,
        sink,
        settings,
        Demands::default(),
        &FlushNever,
    )
}

/// Reads the messages of a stream to its end, and puts the canonical copy of each to a sink. Each
/// copy is put as a framed message of one segment (encoding: Canonicalization, Serialization Over a
/// Stream). The run ends at a message that isn't accepted, or doesn't meet the demands (profile).
///
/// The copy of a message is put before the next message is read, and flushed as `flushing` says.
/// The sink is finished at the end, and before an error is returned, unless the output failed. It is
/// closed after the call in any case.
///
/// Keeps a buffer for messages and one for copies, which [`canonical_over`](cap_canon::canonical_over)
/// fills, and allocates a new one only for what doesn't fit.
///
/// # Errors
///
/// The error names the message at which the run ended, counted from 0. The copies of all messages
/// before it were put, and no message after it was read.
///
/// - [`Cause::TooManyMessages`]: the stream has more than `settings.messages` messages.
/// - [`Cause::Frame`]: the message can't be read within `settings.size`, see
///   [`FrameFault`](cap_frame::FrameFault).
/// - [`Cause::Refused`]: the message isn't accepted within `settings.limits` and the word limit of
///   an unamplified message, if that is demanded. The refusal names the first bad pointer and the
///   reason.
/// - [`Cause::NotStrict`]: a strict message is demanded, and the message is accepted and isn't
///   strict, see [`vet_with`](cap_vet::vet_with). It may have a capability.
/// - [`Cause::Canon`]: the message has a capability, so that it has no copy, or the allocation of
///   the copy failed.
/// - [`Cause::Output`]: the output failed as a copy was put or flushed, or as the sink was
///   finished. It took a prefix of the text of the copies. If finishing the sink fails after
///   another error, `Output` is returned.
pub fn run_canon_with<S: WordSource, K: WordSink, F: Flushing<S>>(
    alloc: Global,
    source: &mut S,
    sink: &mut K,
    settings: &Settings,
    demands: Demands,
    flushing: &F,
) -> Result<Outcome, RunFault> {
    let (messages, end) = make_copies(alloc, source, sink, settings, demands, flushing);
    match end {
        Ok(()) => Ok(Outcome {
            messages,
            refused: 0,
            noncanonical: 0,
        }),
        Err(cause) => Err(RunFault {
            message: messages,
            cause,
        }),
    }
}
