// crates/cap_run/src/engines/vetting.rt without its contracts, by tools/erase: that text is proved, this one is only tested.
//! Vetting a message, and writing a text by what comes of it.

use crate::cap_run::engines::stream::Counted;
use crate::cap_run::engines::whole::{print_messages, MessagePrinter};
use crate::cap_run::settings::{Outcome, Settings};
use crate::cap_run::waiting::Flushing;
use crate::cap_text::{write_overlap, write_refused, Cause, Page, RunFault};
use capvet_core::cap_frame::Segments;
use capvet_core::cap_spec::StrictRefusal;
use capvet_core::cap_vet::{vet_exclusive, vet_with, Demands, ExclusiveRefusal, Limits, Vetted};
use capvet_core::cap_words::{ByteOut, OutFault, WordSource};
use capvet_core::rattle::alloc::Global;

/// What an engine writes about an accepted message.
pub(crate) trait AcceptedPrinter {
    /// Writes the text of a message that is accepted in a run of these limits. What the page held
    /// before isn't written.
    ///
    /// # Errors
    ///
    /// - [`Cause::Output`]: the output failed. It took a prefix of the text.
    /// - [`Cause::Memory`]: an allocation failed. The output took nothing.
    fn print_accepted<M: Segments, O: ByteOut>(
        &self,
        page: &mut Page,
        out: &mut O,
        before: u64,
        number: u32,
        vetted: &Vetted<'_, M>,
        limits: Limits,
    ) -> Result<Counted, Cause>;
}

/// What an engine writes about a message that is refused.
pub(crate) trait RefusalPrinter {
    /// Writes the text of a message that doesn't meet demands. What the page held before isn't
    /// written.
    fn write_refused<M: Segments, O: ByteOut>(
        &self,
        page: &mut Page,
        out: &mut O,
        number: u32,
        message: &M,
        refusal: &StrictRefusal,
        limits: Limits,
    ) -> Result<(), OutFault>;

    /// Writes the text of an accepted message that uses a word twice, by the first pointer that
    /// overlaps. What the page held before isn't written.
    fn write_overlap<M: Segments, O: ByteOut>(
        &self,
        page: &mut Page,
        out: &mut O,
        number: u32,
        message: &M,
        segment: u32,
        word: u32,
        pointers: u64,
        limits: Limits,
    ) -> Result<(), OutFault>;
}

/// What is counted of a message whose text was written, or the fault of the output.
pub(crate) fn after_text(
    written: Result<(), OutFault>,
    counted: Counted,
) -> Result<Counted, Cause> {
    match written {
        Ok(()) => Ok(counted),
        Err(fault) => Err(Cause::Output(fault)),
    }
}

/// Writes the line of a message that is refused.
#[derive(Clone, Copy)]
pub(crate) struct RefusalLines;

impl RefusalPrinter for RefusalLines {
    fn write_refused<M: Segments, O: ByteOut>(
        &self,
        page: &mut Page,
        out: &mut O,
        number: u32,
        _message: &M,
        refusal: &StrictRefusal,
        _limits: Limits,
    ) -> Result<(), OutFault> {
        write_refused(page, out, number, refusal)
    }

    fn write_overlap<M: Segments, O: ByteOut>(
        &self,
        page: &mut Page,
        out: &mut O,
        number: u32,
        _message: &M,
        segment: u32,
        word: u32,
        pointers: u64,
        _limits: Limits,
    ) -> Result<(), OutFault> {
        write_overlap(page, out, number, segment, word, pointers)
    }
}

/// Vets a message under demands, and writes its text if it meets them. Otherwise it writes the first
/// reason why not.
#[derive(Clone, Copy)]
pub(crate) struct Vetting<A, R> {
    pub(crate) limits: Limits,
    pub(crate) demands: Demands,
    pub(crate) accepted: A,
    pub(crate) refused: R,
}

impl<A: AcceptedPrinter, R: RefusalPrinter> MessagePrinter for Vetting<A, R> {
    fn print_message<M: Segments, O: ByteOut>(
        &self,
        page: &mut Page,
        out: &mut O,
        before: u64,
        number: u32,
        message: &M,
    ) -> Result<Counted, Cause> {
        let limits = self.limits;
        match vet_with(message, limits, self.demands) {
            Ok(vetted) => self
                .accepted
                .print_accepted(page, out, before, number, &vetted, limits),
            Err(refusal) => after_text(
                self.refused
                    .write_refused(page, out, number, message, &refusal, limits),
                Counted::Refused,
            ),
        }
    }
}

/// Vets a message under demands, and writes its text if it meets them and uses no word twice.
/// Otherwise it writes the first reason why not, or the first pointer that overlaps.
#[derive(Clone, Copy)]
pub(crate) struct ExclusiveVetting<A, R> {
    pub(crate) alloc: Global,
    pub(crate) limits: Limits,
    pub(crate) demands: Demands,
    pub(crate) accepted: A,
    pub(crate) refused: R,
}

impl<A: AcceptedPrinter, R: RefusalPrinter> MessagePrinter for ExclusiveVetting<A, R> {
    fn print_message<M: Segments, O: ByteOut>(
        &self,
        page: &mut Page,
        out: &mut O,
        before: u64,
        number: u32,
        message: &M,
    ) -> Result<Counted, Cause> {
        let limits = self.limits;
        match vet_exclusive(self.alloc, message, limits, self.demands) {
            Ok(exclusive) => {
                let vetted = exclusive.into_vetted();
                self.accepted
                    .print_accepted(page, out, before, number, &vetted, limits)
            }
            Err(ExclusiveRefusal::Refused(refusal)) => {
                let written = self
                    .refused
                    .write_refused(page, out, number, message, &refusal, limits);
                after_text(written, Counted::Refused)
            }
            Err(ExclusiveRefusal::Overlap {
                segment,
                word,
                pointers,
            }) => {
                let written = self
                    .refused
                    .write_overlap(page, out, number, message, segment, word, pointers, limits);
                after_text(written, Counted::Refused)
            }
            Err(ExclusiveRefusal::Memory) => Err(Cause::Memory),
        }
    }
}

/// Vets each message of a stream, and writes the text of a printer for each that meets the demands,
/// and the line of each that doesn't.
pub(crate) fn vet_all<S: WordSource, O: ByteOut, T: AcceptedPrinter, F: Flushing<S>>(
    alloc: Global,
    source: &mut S,
    out: &mut O,
    settings: &Settings,
    demands: Demands,
    printer: T,
    flushing: &F,
) -> Result<Outcome, RunFault> {
    let vetting = Vetting {
        limits: settings.limits,
        demands,
        accepted: printer,
        refused: RefusalLines,
    };
    print_messages(alloc, source, out, settings, vetting, flushing)
}
