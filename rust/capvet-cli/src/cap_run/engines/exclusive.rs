// crates/cap_run/src/engines/exclusive.rt without its contracts, by tools/erase: that text is proved, this one is only tested.
//! The engine that writes for each message whether it is accepted and uses no word twice.

use crate::cap_run::engines::vet::VetPrinter;
use crate::cap_run::engines::vetting::{ExclusiveVetting, RefusalLines};
use crate::cap_run::engines::whole::print_messages;
use crate::cap_run::settings::{Outcome, Settings};
use crate::cap_run::waiting::{FlushNever, Flushing};
use crate::cap_text::{Cause, RunFault};
use capvet_core::cap_vet::Demands;
use capvet_core::cap_words::{ByteOut, WordSource};
use capvet_core::rattle::alloc::Global;

/// Does what [`run_vet_exclusive_with`] does, without demands and without a flush: a message is
/// accepted if its root denotes a finite tree within `settings.limits` and it uses no word twice.
///
/// # Errors
///
/// Those of [`run_vet_exclusive_with`].
pub fn run_vet_exclusive<S: WordSource, O: ByteOut>(
    alloc: Global,
    source: &mut S,
    out: &mut O,
    settings: &Settings,
) -> Result<Outcome, RunFault> {
    run_vet_exclusive_with(
        alloc,
        source,
        out,
        settings,
        Demands::default(),
        &FlushNever,
    )
}

/// Reads the messages of a stream to its end, and vets each exclusively under demands (profile). A
/// message is accepted if its root denotes a finite tree within `settings.limits`, it meets
/// `demands`, and it uses no word twice.
///
/// For a message that [`run_vet_with`](crate::run_vet_with) refuses, the line is the same as there.
/// So a message that isn't strict is refused for that, also if a pointer overlaps. For a message
/// that only uses a word twice, the line has the first pointer in preorder that overlaps. A pointer
/// overlaps if it uses a word twice, the root word, or a word of an earlier pointer. The line of an
/// accepted message has the numbers of its tree.
///
/// A message that is refused, or in which a pointer overlaps, is counted as refused. It doesn't end
/// the run. The line of a message is written before the next message is read, and flushed as
/// `flushing` says.
///
/// Allocates to hold a message only if it is larger than all before it: eight bytes for each word.
/// For each message it allocates the marks: one bit for each word, and at most 64 bits more.
///
/// # Errors
///
/// The error names the message at which the run ended, counted from 0. The lines of all messages
/// before it were written, and no message after it was read.
///
/// - [`Cause::TooManyMessages`]: the stream has more than `settings.messages` messages.
/// - [`Cause::Frame`]: the message can't be read within `settings.size`, see
///   [`FrameFault`](cap_frame::FrameFault).
/// - [`Cause::Output`]: the output failed as the line was written or flushed. It took a prefix of
///   the line, or all of it.
/// - [`Cause::Memory`]: the message meets the demands within the limits, and the allocation of the
///   marks failed. Nothing was written for it.
pub fn run_vet_exclusive_with<S: WordSource, O: ByteOut, F: Flushing<S>>(
    alloc: Global,
    source: &mut S,
    out: &mut O,
    settings: &Settings,
    demands: Demands,
    flushing: &F,
) -> Result<Outcome, RunFault> {
    let vetting = ExclusiveVetting {
        alloc,
        limits: settings.limits,
        demands,
        accepted: VetPrinter,
        refused: RefusalLines,
    };
    print_messages(alloc, source, out, settings, vetting, flushing)
}
