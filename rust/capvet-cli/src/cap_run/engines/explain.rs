// crates/cap_run/src/engines/explain.rt without its contracts, by tools/erase: that text is proved, this one is only tested.
//! The engines that write for each message whether it is accepted, and explain each refusal.

use crate::cap_run::engines::differing::{counted_by, greatest_limits, write_difference_lines};
use crate::cap_run::engines::passing::write_more;
use crate::cap_run::engines::stream::Counted;
use crate::cap_run::engines::vet::VetPrinter;
use crate::cap_run::engines::vetting::{after_text, AcceptedPrinter};
use crate::cap_run::engines::whole::{explain_messages, MessagePrinter};
use crate::cap_run::settings::{ExplainSettings, Outcome};
use crate::cap_run::waiting::Flushing;
use crate::cap_text::{
    write_accepted, write_filtered, write_overlap, write_refused, Cause, ExplainedFault, Page,
};
use capvet_core::cap_difference::first_difference;
use capvet_core::cap_explain::{
    explain, explain_earlier, explain_overlap, fault_cycle, numbers_of, Explanation, MessageStart,
    Numbers,
};
use capvet_core::cap_frame::Segments;
use capvet_core::cap_spec::StrictRefusal;
use capvet_core::cap_trace::{Cycle, EarlierPointer, NamedPath};
use capvet_core::cap_vet::{limits_under, vet_with, Demands, ExclusiveRefusal, Limits, Vetted};
use capvet_core::cap_words::{ByteOut, OutFault, WordSource};
use capvet_core::rattle::alloc::Global;

/// Where a message begins before which there are this many words of an input.
fn start_after(packed: bool, before: u64) -> MessageStart {
    MessageStart {
        byte: 8 * before,
        packed,
    }
}

/// Writes the lines that explain why a message that begins at `start` doesn't meet demands, after a
/// text that isn't empty. They name this cycle.
fn write_explanation<M: Segments, O: ByteOut>(
    out: &mut O,
    message: &M,
    refusal: &StrictRefusal,
    cycle: Option<Cycle>,
    limits: Limits,
    demands: Demands,
    start: MessageStart,
) -> Result<(), OutFault> {
    let mut path = NamedPath::new();
    path.find_refused(message, limits, refusal);
    let within = limits_under(message, limits, demands);
    let numbers = numbers_of(message, refusal, cycle, within, true, Some(start));
    let mut lines = Explanation::new();
    explain(&mut lines, message, refusal, numbers, path.steps());
    write_more(out, lines.text())
}

/// What `filter`, the guard and the libraries demand of a message.
fn filter_demands() -> Demands {
    Demands {
        strict: true,
        unamplified: true,
    }
}

/// Why `filter`, the guard and the libraries refuse a message under these limits, if they do.
pub(crate) fn filter_refusal<M: Segments>(message: &M, limits: Limits) -> Option<StrictRefusal> {
    match vet_with(message, limits, filter_demands()) {
        Ok(_) => None,
        Err(refusal) => Some(refusal),
    }
}

/// Writes that `filter`, the guard and the libraries refuse a message that begins at `start`, and the
/// lines that explain it, after the line of the message. Writes nothing if they accept it.
fn write_filter_lines<M: Segments, O: ByteOut>(
    page: &mut Page,
    out: &mut O,
    message: &M,
    refusal: &Option<StrictRefusal>,
    limits: Limits,
    start: MessageStart,
) -> Result<(), OutFault> {
    match refusal {
        Some(refusal) => match write_filtered(page, out, refusal) {
            // The message is accepted, so it is within the depth limit.
            Ok(()) => {
                write_explanation(out, message, refusal, None, limits, filter_demands(), start)
            }
            Err(fault) => Err(fault),
        },
        None => Ok(()),
    }
}

/// Writes the line of a message that uses a word twice, and the lines that explain the first pointer
/// that overlaps.
fn write_overlap_lines<M: Segments, O: ByteOut>(
    page: &mut Page,
    out: &mut O,
    number: u32,
    message: &M,
    start: Option<MessageStart>,
    segment: u32,
    word: u32,
    pointers: u64,
    path: &NamedPath,
) -> Result<(), OutFault> {
    match write_overlap(page, out, number, segment, word, pointers) {
        Ok(()) => {
            let mut lines = Explanation::new();
            explain_overlap(&mut lines, message, start, segment, word, path.steps());
            write_more(out, lines.text())
        }
        Err(fault) => Err(fault),
    }
}

/// Writes the line of the first pointer that uses a word which the pointer of an overlap uses too, if
/// there is such a pointer. `path` is the path to it. Other text is before the line.
fn write_earlier<O: ByteOut>(
    out: &mut O,
    earlier: Option<EarlierPointer>,
    path: &NamedPath,
) -> Result<(), OutFault> {
    match earlier {
        Some(earlier) => {
            let mut lines = Explanation::new();
            explain_earlier(&mut lines, earlier.segment, earlier.word, path.steps());
            write_more(out, lines.text())
        }
        None => Ok(()),
    }
}

/// Writes all lines about a message that uses a word twice: those on the first pointer that overlaps,
/// and that of the first pointer that uses such a word.
fn write_both_pointers<M: Segments, O: ByteOut>(
    page: &mut Page,
    out: &mut O,
    number: u32,
    message: &M,
    start: Option<MessageStart>,
    segment: u32,
    word: u32,
    pointers: u64,
) -> Result<(), OutFault> {
    let mut path = NamedPath::new();
    path.find(message, greatest_limits(), pointers);
    let mut earlier_path = NamedPath::new();
    let earlier = earlier_path.find_earlier(message, greatest_limits(), pointers);
    match write_overlap_lines(
        page, out, number, message, start, segment, word, pointers, &path,
    ) {
        Ok(()) => write_earlier(out, earlier, &earlier_path),
        Err(fault) => Err(fault),
    }
}

/// Writes the numbers of an accepted message's tree if the message uses no word twice. Otherwise it
/// explains the first pointer that overlaps.
#[derive(Clone, Copy)]
struct OverlapPrinter {
    alloc: Global,
    packed: bool,
}

impl AcceptedPrinter for OverlapPrinter {
    fn print_accepted<M: Segments, O: ByteOut>(
        &self,
        page: &mut Page,
        out: &mut O,
        before: u64,
        number: u32,
        vetted: &Vetted<'_, M>,
        _limits: Limits,
    ) -> Result<Counted, Cause> {
        match vetted.into_exclusive(self.alloc) {
            Ok(_) => {
                let written = write_accepted(page, out, number, &vetted.report());
                after_text(written, Counted::Accepted)
            }
            Err(ExclusiveRefusal::Overlap {
                segment,
                word,
                pointers,
            }) => {
                let written = write_both_pointers(
                    page,
                    out,
                    number,
                    vetted.message(),
                    Some(start_after(self.packed, before)),
                    segment,
                    word,
                    pointers,
                );
                after_text(written, Counted::Refused)
            }
            Err(ExclusiveRefusal::Memory) => Err(Cause::Memory),
            // The message is accepted.
            Err(ExclusiveRefusal::Refused(_)) => unreachable!(),
        }
    }
}

/// Vets a message under demands, and writes the text of its printer if the message meets them.
/// After the line of an accepted message it explains why `filter`, the guard and the libraries
/// refuse it, and if that is asked why the message isn't canonical. If the message doesn't meet the
/// demands, it explains the first reason why not.
#[derive(Clone, Copy)]
struct Explaining<T> {
    limits: Limits,
    demands: Demands,
    packed: bool,
    canonical: bool,
    printer: T,
}

impl<T: AcceptedPrinter> Explaining<T> {
    /// Writes the line of a message that doesn't meet the demands, and the lines that explain why.
    fn write_refusal<M: Segments, O: ByteOut>(
        &self,
        page: &mut Page,
        out: &mut O,
        before: u64,
        number: u32,
        message: &M,
        refusal: &StrictRefusal,
    ) -> Result<(), OutFault> {
        let cycle = fault_cycle(message, refusal, self.limits);
        match write_refused(page, out, number, refusal) {
            Ok(()) => {
                let start = start_after(self.packed, before);
                write_explanation(
                    out,
                    message,
                    refusal,
                    cycle,
                    self.limits,
                    self.demands,
                    start,
                )
            }
            Err(fault) => Err(fault),
        }
    }

    /// Writes the text of a message that meets the demands. If it is accepted, what comes after it says
    /// why `filter`, the guard and the libraries refuse it.
    fn print_met<M: Segments, O: ByteOut>(
        &self,
        page: &mut Page,
        out: &mut O,
        before: u64,
        number: u32,
        vetted: &Vetted<'_, M>,
    ) -> Result<Counted, Cause> {
        let refusal = filter_refusal(vetted.message(), self.limits);
        match self
            .printer
            .print_accepted(page, out, before, number, vetted, self.limits)
        {
            Ok(Counted::Accepted) => {
                let start = start_after(self.packed, before);
                let message = vetted.message();
                let written = write_filter_lines(page, out, message, &refusal, self.limits, start);
                after_text(written, Counted::Accepted)
            }
            Ok(Counted::Refused) => Ok(Counted::Refused),
            Ok(Counted::NotCanonical) => Ok(Counted::NotCanonical),
            Err(cause) => Err(cause),
        }
    }

    /// Does what `print_met` does. After the text of an accepted message it writes whether the
    /// message is canonical, and why not.
    fn print_difference<M: Segments, O: ByteOut>(
        &self,
        page: &mut Page,
        out: &mut O,
        before: u64,
        number: u32,
        vetted: &Vetted<'_, M>,
    ) -> Result<Counted, Cause> {
        let difference = first_difference(vetted);
        match self.print_met(page, out, before, number, vetted) {
            Ok(Counted::Accepted) => {
                let start = start_after(self.packed, before);
                let message = vetted.message();
                let written =
                    write_difference_lines(page, out, number, message, &difference, start);
                after_text(written, counted_by(&difference))
            }
            Ok(Counted::Refused) => Ok(Counted::Refused),
            Ok(Counted::NotCanonical) => Ok(Counted::NotCanonical),
            Err(cause) => Err(cause),
        }
    }

    /// Writes the text of a message that meets the demands, with whether it is canonical if that is
    /// asked.
    fn print_whole<M: Segments, O: ByteOut>(
        &self,
        page: &mut Page,
        out: &mut O,
        before: u64,
        number: u32,
        vetted: &Vetted<'_, M>,
    ) -> Result<Counted, Cause> {
        if self.canonical {
            self.print_difference(page, out, before, number, vetted)
        } else {
            self.print_met(page, out, before, number, vetted)
        }
    }
}

impl<T: AcceptedPrinter> MessagePrinter for Explaining<T> {
    fn print_message<M: Segments, O: ByteOut>(
        &self,
        page: &mut Page,
        out: &mut O,
        before: u64,
        number: u32,
        message: &M,
    ) -> Result<Counted, Cause> {
        match vet_with(message, self.limits, self.demands) {
            Ok(vetted) => self.print_whole(page, out, before, number, &vetted),
            Err(refusal) => {
                let written = self.write_refusal(page, out, before, number, message, &refusal);
                after_text(written, Counted::Refused)
            }
        }
    }
}

/// Does what [`run_vet_with`](crate::run_vet_with) does, and explains each refusal. After the line of
/// a refused message come lines with the path to its pointer, the pointer word and where it leads,
/// what is exceeded, the last cycle of the path, and the reason as a sentence.
///
/// If `settings.canonical` says so, a line on whether it is canonical comes after the text of an
/// accepted message, with the first difference from its canonical copy and the lines that explain
/// that. A message that isn't canonical is counted as such.
///
/// # Errors
///
/// Those of [`run_vet_with`](crate::run_vet_with). A message's text is its line and the lines that
/// explain it. The error has what is known of a message that can't be read.
pub fn run_explain<S: WordSource, O: ByteOut, F: Flushing<S>>(
    alloc: Global,
    source: &mut S,
    out: &mut O,
    settings: &ExplainSettings,
    demands: Demands,
    flushing: &F,
) -> Result<Outcome, ExplainedFault> {
    let explaining = Explaining {
        limits: settings.limits,
        demands,
        packed: settings.packed,
        canonical: settings.canonical,
        printer: VetPrinter,
    };
    explain_messages(alloc, source, out, settings, explaining, flushing)
}

/// Does what [`run_vet_exclusive_with`](crate::run_vet_exclusive_with) does, and explains each
/// refusal as [`run_explain`] does.
///
/// # Errors
///
/// Those of [`run_vet_exclusive_with`](crate::run_vet_exclusive_with). A message's text is its line
/// and the lines that explain it. The error has what is known of a message that can't be read.
pub fn run_explain_exclusive<S: WordSource, O: ByteOut, F: Flushing<S>>(
    alloc: Global,
    source: &mut S,
    out: &mut O,
    settings: &ExplainSettings,
    demands: Demands,
    flushing: &F,
) -> Result<Outcome, ExplainedFault> {
    let explaining = Explaining {
        limits: settings.limits,
        demands,
        packed: settings.packed,
        canonical: settings.canonical,
        printer: OverlapPrinter {
            alloc,
            packed: settings.packed,
        },
    };
    explain_messages(alloc, source, out, settings, explaining, flushing)
}
