// crates/cap_run/src/engines/differing.rt without its contracts, by tools/erase: that text is proved, this one is only tested.
//! The text of an accepted message on whether it is canonical, and why not.

use crate::cap_run::engines::passing::write_more;
use crate::cap_run::engines::stream::Counted;
use crate::cap_text::{write_difference, Page};
use capvet_core::cap_difference::{Difference, DifferenceReason};
use capvet_core::cap_explain::{explain_difference, Explanation, MessageStart};
use capvet_core::cap_frame::Segments;
use capvet_core::cap_trace::NamedPath;
use capvet_core::cap_vet::Limits;
use capvet_core::cap_words::{ByteOut, OutFault};

/// The greatest limits.
pub(crate) fn greatest_limits() -> Limits {
    Limits::greatest()
}

/// What is counted of an accepted message by its first difference.
pub(crate) fn counted_by(difference: &Option<Difference>) -> Counted {
    match difference {
        Some(_) => Counted::NotCanonical,
        None => Counted::Accepted,
    }
}

/// The number of the pointer that differs, and 0 if none does.
fn number_of(difference: &Difference) -> u64 {
    match difference.reason {
        DifferenceReason::Trailing => 0,
        _ => difference.pointers,
    }
}

/// Finds the path to the pointer that differs, if one does.
pub(crate) fn find_difference<M: Segments>(
    path: &mut NamedPath,
    message: &M,
    difference: &Difference,
) {
    path.find(message, greatest_limits(), number_of(difference));
}

/// Writes the lines that explain the first difference of a message that begins at `start`, after a
/// text that isn't empty. Writes nothing if there is none.
fn write_explained<M: Segments, O: ByteOut>(
    out: &mut O,
    message: &M,
    difference: &Option<Difference>,
    start: MessageStart,
) -> Result<(), OutFault> {
    match difference {
        Some(difference) => {
            let mut path = NamedPath::new();
            find_difference(&mut path, message, difference);
            let mut lines = Explanation::new();
            explain_difference(&mut lines, message, Some(start), difference, path.steps());
            write_more(out, lines.text())
        }
        None => Ok(()),
    }
}

/// Writes the line of message `number` by its first difference, and the lines that explain that,
/// after a text that isn't empty.
pub(crate) fn write_difference_lines<M: Segments, O: ByteOut>(
    page: &mut Page,
    out: &mut O,
    number: u32,
    message: &M,
    difference: &Option<Difference>,
    start: MessageStart,
) -> Result<(), OutFault> {
    match write_difference(page, out, number, difference) {
        Ok(()) => write_explained(out, message, difference, start),
        Err(fault) => Err(fault),
    }
}
