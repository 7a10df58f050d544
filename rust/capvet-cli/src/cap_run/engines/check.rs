// crates/cap_run/src/engines/check.rt without its contracts, by tools/erase: that text is proved, this one is only tested.
//! The engine that writes for each message whether it is canonical.

use crate::cap_run::engines::stream::Counted;
use crate::cap_run::engines::vetting::after_text;
use crate::cap_run::engines::whole::{print_messages, MessagePrinter};
use crate::cap_run::settings::{Outcome, Settings};
use crate::cap_run::waiting::{FlushNever, Flushing};
use crate::cap_text::{write_check, write_refused, Cause, Page, RunFault};
use capvet_core::cap_canon::check_with;
use capvet_core::cap_frame::Segments;
use capvet_core::cap_vet::{Demands, Limits};
use capvet_core::cap_words::{ByteOut, WordSource};
use capvet_core::rattle::alloc::Global;

/// Vets a message under demands, and writes whether it is canonical if it meets them. Otherwise it
/// writes the first reason why not, and the place.
#[derive(Clone, Copy)]
struct Checking {
    limits: Limits,
    demands: Demands,
}

impl MessagePrinter for Checking {
    fn print_message<M: Segments, O: ByteOut>(
        &self,
        page: &mut Page,
        out: &mut O,
        _before: u64,
        number: u32,
        message: &M,
    ) -> Result<Counted, Cause> {
        match check_with(message, self.limits, self.demands) {
            Ok((_, canonical)) => {
                let written = write_check(page, out, number, canonical);
                after_text(written, count_of(canonical))
            }
            Err(refusal) => {
                let written = write_refused(page, out, number, &refusal);
                after_text(written, Counted::Refused)
            }
        }
    }
}

/// What is counted of an accepted message, by whether it is canonical.
pub(crate) fn count_of(canonical: bool) -> Counted {
    if canonical {
        Counted::Accepted
    } else {
        Counted::NotCanonical
    }
}

/// Does what [`run_check_with`] does, without demands and without a flush.
///
/// # Errors
///
/// Those of [`run_check_with`].
pub fn run_check<S: WordSource, O: ByteOut>(
    alloc: Global,
    source: &mut S,
    out: &mut O,
    settings: &Settings,
) -> Result<Outcome, RunFault> {
    run_check_with(
        alloc,
        source,
        out,
        settings,
        Demands::default(),
        &FlushNever,
    )
}

/// Reads the messages of a stream to its end, and writes for each whether it is canonical. A
/// message is canonical if it has one segment, whose words are its canonical copy (encoding:
/// Canonicalization). A message with a capability isn't.
///
/// For a message that isn't accepted within `settings.limits`, or doesn't meet the demands, it
/// writes the line of [`run_vet_with`](crate::run_vet_with). A message that is refused or isn't
/// canonical is counted, and doesn't end the run. The line of a message is written before the next
/// message is read, and flushed as `flushing` says.
///
/// Allocates only to hold a message that is larger than all before it: eight bytes for each word.
///
/// # Errors
///
/// The error names the message at which the run ended, counted from 0. The lines of all messages
/// before it were written, and no message after it was read.
///
/// - [`Cause::TooManyMessages`](crate::Cause::TooManyMessages): the stream has more than
///   `settings.messages` messages.
/// - [`Cause::Frame`](crate::Cause::Frame): the message can't be read within `settings.size`, see
///   [`FrameFault`](cap_frame::FrameFault).
/// - [`Cause::Output`](crate::Cause::Output): the output failed as the line was written or flushed.
///   It took a prefix of the line, or all of it.
pub fn run_check_with<S: WordSource, O: ByteOut, F: Flushing<S>>(
    alloc: Global,
    source: &mut S,
    out: &mut O,
    settings: &Settings,
    demands: Demands,
    flushing: &F,
) -> Result<Outcome, RunFault> {
    let checking = Checking {
        limits: settings.limits,
        demands,
    };
    print_messages(alloc, source, out, settings, checking, flushing)
}
