// crates/cap_run/src/engines/canonical_object.rt without its contracts, by tools/erase: that text is proved, this one is only tested.
//! The JSON object of an accepted message that says whether it is canonical, and why not.

use crate::cap_run::engines::differing::{counted_by, find_difference};
use crate::cap_run::engines::explain::filter_refusal;
use crate::cap_run::engines::sentence::{last_reason, reason_lines};
use crate::cap_run::engines::stream::Counted;
use crate::cap_run::engines::vetting::after_text;
use crate::cap_text::{write_canonical_json, write_filtered_end, write_object_end, Cause, Page};
use capvet_core::cap_difference::{first_difference, Difference};
use capvet_core::cap_explain::difference_sentence;
use capvet_core::cap_frame::Segments;
use capvet_core::cap_spec::StrictRefusal;
use capvet_core::cap_trace::NamedPath;
use capvet_core::cap_vet::{Limits, Report, Vetted};
use capvet_core::cap_words::{ByteOut, OutFault};

/// Writes the object of an accepted message up to the members on whether it is canonical.
fn write_start<M: Segments, O: ByteOut>(
    page: &mut Page,
    out: &mut O,
    number: u32,
    message: &M,
    report: &Report,
    difference: &Option<Difference>,
) -> Result<(), OutFault> {
    let mut path = NamedPath::new();
    match difference {
        Some(found) => {
            find_difference(&mut path, message, found);
            let sentence = difference_sentence(found.reason);
            write_canonical_json(
                page,
                out,
                number,
                report,
                difference,
                path.steps(),
                sentence,
            )
        }
        None => write_canonical_json(page, out, number, report, difference, None, b""),
    }
}

/// Writes the end of the object of an accepted message that `filter`, the guard and the libraries
/// refuse, with the member that says why.
fn write_refused_end<M: Segments, O: ByteOut>(
    page: &mut Page,
    out: &mut O,
    message: &M,
    refusal: &StrictRefusal,
    limits: Limits,
) -> Result<(), OutFault> {
    let mut path = NamedPath::new();
    path.find_refused(message, limits, refusal);
    let lines = reason_lines(message, refusal);
    let sentence = last_reason(lines.text());
    write_filtered_end(page, out, refusal, path.steps(), sentence)
}

/// Writes the end of the object of an accepted message, with the member that says why `filter`, the
/// guard and the libraries refuse the message within these limits, if they do.
fn write_end<M: Segments, O: ByteOut>(
    page: &mut Page,
    out: &mut O,
    message: &M,
    refusal: &Option<StrictRefusal>,
    limits: Limits,
) -> Result<(), OutFault> {
    match refusal {
        Some(refusal) => write_refused_end(page, out, message, refusal, limits),
        None => write_object_end(page, out),
    }
}

/// Writes the object of an accepted message by its first difference.
fn write_object<M: Segments, O: ByteOut>(
    page: &mut Page,
    out: &mut O,
    number: u32,
    message: &M,
    report: &Report,
    difference: &Option<Difference>,
    limits: Limits,
) -> Result<(), OutFault> {
    let refusal = filter_refusal(message, limits);
    match write_start(page, out, number, message, report, difference) {
        Ok(()) => write_end(page, out, message, &refusal, limits),
        Err(fault) => Err(fault),
    }
}

/// Writes the object of an accepted message that says whether it is canonical, and why not. Its
/// last member says why `filter`, the guard and the libraries refuse the message within these
/// limits, if they do.
pub(crate) fn print_canonical_object<M: Segments, O: ByteOut>(
    page: &mut Page,
    out: &mut O,
    number: u32,
    vetted: &Vetted<'_, M>,
    limits: Limits,
) -> Result<Counted, Cause> {
    let difference = first_difference(vetted);
    let message = vetted.message();
    let report = vetted.report();
    let written = write_object(page, out, number, message, &report, &difference, limits);
    after_text(written, counted_by(&difference))
}
