// crates/cap_run/src/engines/explained.rt without its contracts, by tools/erase: that text is proved, this one is only tested.
//! The engines that write a JSON object about each message, which explains a refusal.

use crate::cap_run::engines::canonical_object::print_canonical_object;
use crate::cap_run::engines::explain::filter_refusal;
use crate::cap_run::engines::sentence::{last_reason, reason_lines};
use crate::cap_run::engines::stream::Counted;
use crate::cap_run::engines::vetting::{
    after_text, AcceptedPrinter, ExclusiveVetting, RefusalPrinter, Vetting,
};
use crate::cap_run::engines::whole::explain_messages;
use crate::cap_run::settings::{ExplainSettings, Outcome};
use crate::cap_run::waiting::Flushing;
use crate::cap_text::{
    write_accepted_json, write_explained_json, write_explained_overlap_json, write_filtered_json,
    Cause, ExplainedFault, Page,
};
use capvet_core::cap_explain::{explain_overlap, fault_cycle, Explanation};
use capvet_core::cap_frame::Segments;
use capvet_core::cap_spec::StrictRefusal;
use capvet_core::cap_trace::NamedPath;
use capvet_core::cap_vet::{Demands, Limits, Report, Vetted};
use capvet_core::cap_words::{ByteOut, OutFault, WordSource};
use capvet_core::rattle::alloc::Global;

/// The lines that explain that a pointer uses a word twice, without a path. The last gives its
/// sentence.
fn overlap_lines<M: Segments>(message: &M, segment: u32, word: u32) -> Explanation {
    let mut lines = Explanation::new();
    explain_overlap(&mut lines, message, None, segment, word, None);
    lines
}

/// Writes the object of a message that doesn't meet demands within limits.
fn write_fault_object<M: Segments, O: ByteOut>(
    page: &mut Page,
    out: &mut O,
    number: u32,
    message: &M,
    refusal: &StrictRefusal,
    limits: Limits,
) -> Result<(), OutFault> {
    let mut path = NamedPath::new();
    path.find_refused(message, limits, refusal);
    let lines = reason_lines(message, refusal);
    let sentence = last_reason(lines.text());
    let cycle = fault_cycle(message, refusal, limits);
    write_explained_json(page, out, number, refusal, path.steps(), sentence, cycle)
}

/// Writes the object of a message that is accepted, and that `filter`, the guard and the libraries
/// refuse.
fn write_filtered_object<M: Segments, O: ByteOut>(
    page: &mut Page,
    out: &mut O,
    number: u32,
    message: &M,
    report: &Report,
    refusal: &StrictRefusal,
    limits: Limits,
) -> Result<(), OutFault> {
    let mut path = NamedPath::new();
    path.find_refused(message, limits, refusal);
    let lines = reason_lines(message, refusal);
    let sentence = last_reason(lines.text());
    write_filtered_json(page, out, number, report, refusal, path.steps(), sentence)
}

/// Writes the object of a message that is accepted. Its last member says why `filter`, the guard and
/// the libraries refuse the message within these limits, if they do.
fn write_accepted_object<M: Segments, O: ByteOut>(
    page: &mut Page,
    out: &mut O,
    number: u32,
    message: &M,
    report: &Report,
    limits: Limits,
) -> Result<(), OutFault> {
    match filter_refusal(message, limits) {
        Some(refusal) => {
            write_filtered_object(page, out, number, message, report, &refusal, limits)
        }
        None => write_accepted_json(page, out, number, report),
    }
}

/// Writes the object of a message that is accepted.
#[derive(Clone, Copy)]
struct ObjectPrinter {
    /// Whether the object says whether the message is canonical, and why not.
    canonical: bool,
}

impl AcceptedPrinter for ObjectPrinter {
    fn print_accepted<M: Segments, O: ByteOut>(
        &self,
        page: &mut Page,
        out: &mut O,
        _before: u64,
        number: u32,
        vetted: &Vetted<'_, M>,
        limits: Limits,
    ) -> Result<Counted, Cause> {
        if self.canonical {
            return print_canonical_object(page, out, number, vetted, limits);
        }
        let report = vetted.report();
        let written = write_accepted_object(page, out, number, vetted.message(), &report, limits);
        after_text(written, Counted::Accepted)
    }
}

/// Writes the object of a message within limits that uses a word twice, with the first pointer that
/// overlaps.
fn write_overlap_object<M: Segments, O: ByteOut>(
    page: &mut Page,
    out: &mut O,
    number: u32,
    message: &M,
    limits: Limits,
    segment: u32,
    word: u32,
    pointers: u64,
) -> Result<(), OutFault> {
    let mut path = NamedPath::new();
    path.find(message, limits, pointers);
    let lines = overlap_lines(message, segment, word);
    let sentence = last_reason(lines.text());
    write_explained_overlap_json(
        page,
        out,
        number,
        segment,
        word,
        pointers,
        path.steps(),
        sentence,
    )
}

/// Writes the object of a message that is refused, which explains why.
#[derive(Clone, Copy)]
struct ExplainedRefusals;

impl RefusalPrinter for ExplainedRefusals {
    fn write_refused<M: Segments, O: ByteOut>(
        &self,
        page: &mut Page,
        out: &mut O,
        number: u32,
        message: &M,
        refusal: &StrictRefusal,
        limits: Limits,
    ) -> Result<(), OutFault> {
        write_fault_object(page, out, number, message, refusal, limits)
    }

    fn write_overlap<M: Segments, O: ByteOut>(
        &self,
        page: &mut Page,
        out: &mut O,
        number: u32,
        message: &M,
        segment: u32,
        word: u32,
        pointers: u64,
        limits: Limits,
    ) -> Result<(), OutFault> {
        write_overlap_object(page, out, number, message, limits, segment, word, pointers)
    }
}

/// Does what [`run_explain`](crate::run_explain) does, and writes a JSON object for each message in the
/// place of its lines. That of a refused message has the path to the pointer and the reason as a
/// sentence. It has the last cycle of the path, if a limit is passed and there is one. That of an
/// accepted message says why `filter`, the guard and the libraries refuse it,
/// if they do (docs/output.md, JSON).
///
/// # Errors
///
/// Those of [`run_explain`](crate::run_explain).
pub fn run_explain_json<S: WordSource, O: ByteOut, F: Flushing<S>>(
    alloc: Global,
    source: &mut S,
    out: &mut O,
    settings: &ExplainSettings,
    demands: Demands,
    flushing: &F,
) -> Result<Outcome, ExplainedFault> {
    let vetting = Vetting {
        limits: settings.limits,
        demands,
        accepted: ObjectPrinter {
            canonical: settings.canonical,
        },
        refused: ExplainedRefusals,
    };
    explain_messages(alloc, source, out, settings, vetting, flushing)
}

/// Does what [`run_explain_exclusive`](crate::run_explain_exclusive) does, and writes a JSON object for
/// each message as [`run_explain_json`] does.
///
/// # Errors
///
/// Those of [`run_explain_exclusive`](crate::run_explain_exclusive).
pub fn run_explain_exclusive_json<S: WordSource, O: ByteOut, F: Flushing<S>>(
    alloc: Global,
    source: &mut S,
    out: &mut O,
    settings: &ExplainSettings,
    demands: Demands,
    flushing: &F,
) -> Result<Outcome, ExplainedFault> {
    let vetting = ExclusiveVetting {
        alloc,
        limits: settings.limits,
        demands,
        accepted: ObjectPrinter {
            canonical: settings.canonical,
        },
        refused: ExplainedRefusals,
    };
    explain_messages(alloc, source, out, settings, vetting, flushing)
}
