// crates/cap_run/src/engines/stream.rt without its contracts, by tools/erase: that text is proved, this one is only tested.
//! Reading the messages of a stream, and writing a text for each.

use crate::cap_run::engines::reading::end_stream;
use crate::cap_run::settings::{Outcome, Settings};
use crate::cap_run::waiting::{flush_output, Flushing, AHEAD};
use crate::cap_text::{Cause, RunFault, StreamBreak};
use capvet_core::cap_frame::{FrameFault, SizeLimit};
use capvet_core::cap_words::{ByteOut, OutFault, WordSource};

/// What is counted of a message.
#[derive(Clone, Copy)]
pub(crate) enum Counted {
    /// It was accepted.
    Accepted,
    /// It was refused.
    Refused,
    /// It was accepted and isn't canonical, or has no canonical copy if a hash is asked for.
    NotCanonical,
}

/// What is done at each message of a stream.
pub(crate) trait Engine {
    /// The buffers that it fills again at each message, and keeps from one message to the next.
    type Buffers;

    /// The buffers as they are before the first message.
    fn buffers(&self) -> Self::Buffers;

    /// Reads the next message and writes its text. Returns what is counted of the message, and its
    /// words. `None` if the stream ends before it. The text doesn't depend on what the buffers held
    /// before. If the message can't be read, `at` is what is known of it.
    ///
    /// # Errors
    ///
    /// - [`Cause::Frame`]: the message can't be read. The output took nothing.
    /// - [`Cause::Output`]: the output failed. It took a prefix of the text.
    /// - [`Cause::Memory`]: the message was read, and an allocation failed then. The output took
    ///   nothing.
    fn print_next<S: WordSource, O: ByteOut>(
        &self,
        buffers: &mut Self::Buffers,
        source: &mut S,
        out: &mut O,
        limit: SizeLimit,
        before: u64,
        number: u32,
        at: &mut StreamBreak,
    ) -> Result<Option<(Counted, u64)>, Cause>;
}

/// The fault of an output at a message.
fn output_fault_at(message: u32, fault: OutFault) -> RunFault {
    RunFault {
        message,
        cause: Cause::Output(fault),
    }
}

/// Counts one more message.
pub(crate) fn count(outcome: Outcome, counted: Counted) -> Outcome {
    let mut total = outcome;
    total.messages += 1;
    match counted {
        Counted::Accepted => {}
        Counted::Refused => total.refused += 1,
        Counted::NotCanonical => total.noncanonical += 1,
    }
    total
}

// Reads the messages of a stream to its end, and writes the text of each.
fn print_each<S: WordSource, O: ByteOut, E: Engine, F: Flushing<S>>(
    source: &mut S,
    out: &mut O,
    settings: &Settings,
    engine: &E,
    at: &mut StreamBreak,
    flushing: &F,
) -> Result<Outcome, RunFault> {
    let mut outcome = Outcome {
        messages: 0,
        refused: 0,
        noncanonical: 0,
    };
    let mut buffers = engine.buffers();
    let mut ahead = [0; AHEAD];
    let mut before = 0;
    for number in 0..settings.messages {
        match engine.print_next(&mut buffers, source, out, settings.size, before, number, at) {
            Ok(Some((counted, words))) => {
                let waits = flushing.before_message(source, settings.size, &mut ahead);
                match flush_output(out, waits) {
                    Ok(()) => {
                        outcome = count(outcome, counted);
                        before += words;
                    }
                    Err(fault) => return Err(output_fault_at(number, fault)),
                }
            }
            Ok(None) => return Ok(outcome),
            Err(cause) => {
                return Err(RunFault {
                    message: number,
                    cause,
                })
            }
        }
    }
    match end_stream(source, settings.size, at) {
        Ok(()) => Ok(outcome),
        Err(cause) => Err(RunFault {
            message: settings.messages,
            cause,
        }),
    }
}

/// Reads the messages of a stream to its end, and writes the text of each before it reads the next.
/// It flushes the text as `flushing` says. `at` says whether the input is packed. If a message can't
/// be read, it is then what is known of that message.
pub(crate) fn print_all<S: WordSource, O: ByteOut, E: Engine, F: Flushing<S>>(
    source: &mut S,
    out: &mut O,
    settings: &Settings,
    engine: &E,
    at: &mut StreamBreak,
    flushing: &F,
) -> Result<Outcome, RunFault> {
    print_each(source, out, settings, engine, at, flushing)
}
