// crates/cap_vet/src/strictness/strict_vetting.rt without its contracts, by tools/erase: that text is proved, this one is only tested.
//! The verdict of a message that has to be strict.

use crate::cap_frame::Segments;
use crate::cap_spec::StrictRefusal;
use crate::cap_vet::nodes::vetted::Vetted;
use crate::cap_vet::strictness::path_strictness::strict_fault;
use crate::cap_vet::strictness::strict::Strict;
use crate::cap_vet::strictness::strict_turn::LaxSearch;
use crate::cap_walk::{walk, Demands, Limits, Report, Stopped};

/// Vets a message, and accepts it if it is also strict (profile). Then it has at most 511 segments,
/// and no path reaches a pointer of a form in [`crate::Lax`]. Walks once. Allocates nothing.
///
/// # Errors
///
/// - [`StrictRefusal::Refused`]: `vet` refuses the message.
/// - [`StrictRefusal::ManySegments`]: the message is accepted, and has 512 segments.
/// - [`StrictRefusal::Pointer`]: the message is accepted, has at most 511 segments, and a pointer
///   has one of these forms. The first in preorder is named. Its `pointers` counts the pointer words
///   that were looked at, that one included.
pub fn vet_strict<'m, M: Segments>(
    message: &'m M,
    limits: Limits,
) -> Result<Strict<'m, M>, StrictRefusal> {
    let mut search = LaxSearch { first: None };
    let mut report = Report::default();
    match walk(message, &limits, &mut search, &mut report) {
        Ok(()) => {}
        Err(Stopped::Refused(refusal)) => return Err(StrictRefusal::Refused(refusal)),
        Err(Stopped::ByTurn(never)) => match never {},
    }
    let demands = Demands {
        strict: true,
        unamplified: false,
    };
    match strict_fault(message, demands, search.first) {
        None => Ok(Strict {
            vetted: Vetted { message, report },
        }),
        Some(fault) => Err(fault),
    }
}
