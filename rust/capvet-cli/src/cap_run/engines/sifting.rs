// crates/cap_run/src/engines/sifting.rt without its contracts, by tools/erase: that text is proved, this one is only tested.
//! Vetting a message, and then passing it on or writing its line.

use crate::cap_run::engines::passing::{write_frame, write_packed_frame, FrameBuffers};
use crate::cap_run::engines::stream::Counted;
use crate::cap_run::settings::FilterForm;
use crate::cap_text::{write_overlap, write_refused, Cause, Page};
use capvet_core::cap_frame::{ByteView, Segments};
use capvet_core::cap_spec::StrictRefusal;
use capvet_core::cap_vet::{vet_exclusive, vet_with, Demands, ExclusiveRefusal, Limits};
use capvet_core::cap_words::{ByteOut, OutFault};
use capvet_core::rattle::alloc::Global;

/// Why a message is refused.
#[derive(Clone, Copy)]
pub(crate) enum Rejection {
    /// It doesn't meet the demands.
    Unmet(StrictRefusal),
    /// It meets them, and uses a word twice. This is the first pointer that overlaps.
    Overlap {
        segment: u32,
        word: u32,
        pointers: u64,
    },
}

/// Writes the line of a refused message.
pub(crate) fn write_rejection<E: ByteOut>(
    page: &mut Page,
    log: &mut E,
    number: u32,
    rejection: &Rejection,
) -> Result<(), OutFault> {
    match rejection {
        Rejection::Unmet(refusal) => write_refused(page, log, number, refusal),
        Rejection::Overlap {
            segment,
            word,
            pointers,
        } => write_overlap(page, log, number, *segment, *word, *pointers),
    }
}

/// Writes the line of a refused message, and flushes it.
fn write_note<E: ByteOut>(
    page: &mut Page,
    log: &mut E,
    number: u32,
    rejection: &Rejection,
) -> Result<(), OutFault> {
    match write_rejection(page, log, number, rejection) {
        Ok(()) => log.flush(),
        Err(fault) => Err(fault),
    }
}

/// Writes the line of a refused message, unless the log has failed. Whether it has failed now.
fn note<E: ByteOut>(
    page: &mut Page,
    log: &mut E,
    failed: bool,
    number: u32,
    rejection: &Rejection,
) -> bool {
    if failed {
        return true;
    }
    match write_note(page, log, number, rejection) {
        Ok(()) => false,
        Err(_) => true,
    }
}

/// Writes the frame of a message, plain or packed.
fn write_in<'b, O: ByteOut>(
    out: &mut O,
    message: &ByteView<'b>,
    pack: bool,
    buffers: &mut FrameBuffers,
) -> Result<(), OutFault> {
    if pack {
        return write_packed_frame(out, message, buffers);
    }
    write_frame(out, message, buffers)
}

/// Writes the frame of a message, plain or packed, and flushes it unless it may wait.
fn pass_on<'b, O: ByteOut>(
    out: &mut O,
    message: &ByteView<'b>,
    pack: bool,
    wait: bool,
    buffers: &mut FrameBuffers,
) -> Result<(), OutFault> {
    match write_in(out, message, pack, buffers) {
        Ok(()) if wait => Ok(()),
        Ok(()) => out.flush(),
        Err(fault) => Err(fault),
    }
}

/// Flushes the frames that wait for it, if there are any.
fn flush_waiting<O: ByteOut>(out: &mut O, waits: bool) -> Result<(), OutFault> {
    if waits {
        return out.flush();
    }
    Ok(())
}

/// What is kept from one message to the next, beside the message.
pub(crate) struct FilterState {
    /// What frames are written from.
    buffers: FrameBuffers,
    /// The page for a line.
    page: Page,
    /// Whether the log has failed.
    pub(crate) failed: bool,
    /// Whether the message that was sifted last was accepted, and its frame waits for a flush.
    pub(crate) waits: bool,
}

impl FilterState {
    /// Nothing was written yet.
    pub(crate) fn new() -> FilterState {
        FilterState {
            buffers: FrameBuffers::new(),
            page: Page::new(),
            failed: false,
            waits: false,
        }
    }
}

/// How messages are vetted and passed on.
#[derive(Clone, Copy)]
pub(crate) struct MessageFilter {
    pub(crate) alloc: Global,
    pub(crate) limits: Limits,
    pub(crate) demands: Demands,
    pub(crate) form: FilterForm,
}

impl MessageFilter {
    /// Vets a message. `None` if it is accepted.
    ///
    /// # Errors
    ///
    /// [`Cause::Memory`]: an allocation failed.
    fn vet<M: Segments>(&self, message: &M) -> Result<Option<Rejection>, Cause> {
        if self.form.exclusive {
            return self.vet_exclusively(message);
        }
        match vet_with(message, self.limits, self.demands) {
            Ok(_) => Ok(None),
            Err(refusal) => Ok(Some(Rejection::Unmet(refusal))),
        }
    }

    /// The same of a message that may use no word twice.
    ///
    /// # Errors
    ///
    /// [`Cause::Memory`]: the allocation of the marks failed.
    fn vet_exclusively<M: Segments>(&self, message: &M) -> Result<Option<Rejection>, Cause> {
        match vet_exclusive(self.alloc, message, self.limits, self.demands) {
            Ok(_) => Ok(None),
            Err(ExclusiveRefusal::Refused(refusal)) => Ok(Some(Rejection::Unmet(refusal))),
            Err(ExclusiveRefusal::Overlap {
                segment,
                word,
                pointers,
            }) => Ok(Some(Rejection::Overlap {
                segment,
                word,
                pointers,
            })),
            Err(ExclusiveRefusal::Memory) => Err(Cause::Memory),
        }
    }

    /// Vets a message. Its frame is written if it is accepted, and flushed unless it may wait.
    /// Otherwise the frames that wait are flushed. Then its line is written to the log and flushed,
    /// unless the log has failed.
    ///
    /// # Errors
    ///
    /// The log took nothing.
    ///
    /// - [`Cause::Output`]: the output failed. The message is accepted, and the output took a prefix
    ///   of its frame. Or it is refused, and frames that waited weren't flushed.
    /// - [`Cause::Memory`]: an allocation failed. The output took nothing.
    pub(crate) fn sift<'b, O: ByteOut, E: ByteOut>(
        &self,
        state: &mut FilterState,
        out: &mut O,
        log: &mut E,
        wait: bool,
        number: u32,
        message: &ByteView<'b>,
    ) -> Result<Counted, Cause> {
        match self.vet(message) {
            Ok(None) => match pass_on(out, message, self.form.pack, wait, &mut state.buffers) {
                Ok(()) => {
                    state.waits = wait;
                    Ok(Counted::Accepted)
                }
                Err(fault) => Err(Cause::Output(fault)),
            },
            Ok(Some(rejection)) => match flush_waiting(out, state.waits) {
                Ok(()) => {
                    state.waits = false;
                    state.failed = note(&mut state.page, log, state.failed, number, &rejection);
                    Ok(Counted::Refused)
                }
                Err(fault) => Err(Cause::Output(fault)),
            },
            Err(cause) => Err(cause),
        }
    }
}
