// crates/cap_run/src/engines/dump.rt without its contracts, by tools/erase: that text is proved, this one is only tested.
//! The engine that writes the tree of each message.

use crate::cap_run::engines::stream::Counted;
use crate::cap_run::engines::vetting::{after_text, vet_all, AcceptedPrinter};
use crate::cap_run::settings::{Outcome, Settings};
use crate::cap_run::waiting::{FlushNever, Flushing};
use crate::cap_text::{write_tree, Cause, Page, RunFault};
use capvet_core::cap_frame::Segments;
use capvet_core::cap_vet::{Demands, Limits, Vetted};
use capvet_core::cap_words::{ByteOut, WordSource};
use capvet_core::rattle::alloc::Global;

/// Writes the tree of a message.
#[derive(Clone, Copy)]
struct DumpPrinter;

impl AcceptedPrinter for DumpPrinter {
    fn print_accepted<M: Segments, O: ByteOut>(
        &self,
        page: &mut Page,
        out: &mut O,
        _before: u64,
        number: u32,
        vetted: &Vetted<'_, M>,
        _limits: Limits,
    ) -> Result<Counted, Cause> {
        after_text(write_tree(page, out, number, vetted), Counted::Accepted)
    }
}

/// Does what [`run_dump_with`] does, without demands and without a flush.
///
/// # Errors
///
/// Those of [`run_dump_with`].
pub fn run_dump<S: WordSource, O: ByteOut>(
    alloc: Global,
    source: &mut S,
    out: &mut O,
    settings: &Settings,
) -> Result<Outcome, RunFault> {
    run_dump_with(
        alloc,
        source,
        out,
        settings,
        Demands::default(),
        &FlushNever,
    )
}

/// Reads the messages of a stream to its end, and writes for each the line of
/// [`run_vet_with`](crate::run_vet_with). After the line of an accepted message it writes the
/// message's whole tree, as [`dump`](crate::dump) does.
///
/// A refused message is counted, and doesn't end the run. The text of a message is written before
/// the next message is read, and flushed as `flushing` says.
///
/// Allocates only to hold a message that is larger than all before it: eight bytes for each word.
///
/// # Errors
///
/// The error names the message at which the run ended, counted from 0. The texts of all messages
/// before it were written, and no message after it was read.
///
/// - [`Cause::TooManyMessages`](crate::Cause::TooManyMessages): the stream has more than
///   `settings.messages` messages.
/// - [`Cause::Frame`](crate::Cause::Frame): the message can't be read within `settings.size`, see
///   [`FrameFault`](cap_frame::FrameFault).
/// - [`Cause::Output`](crate::Cause::Output): the output failed as the text was written or flushed.
///   It took a prefix of the text, or all of it.
pub fn run_dump_with<S: WordSource, O: ByteOut, F: Flushing<S>>(
    alloc: Global,
    source: &mut S,
    out: &mut O,
    settings: &Settings,
    demands: Demands,
    flushing: &F,
) -> Result<Outcome, RunFault> {
    vet_all(alloc, source, out, settings, demands, DumpPrinter, flushing)
}
