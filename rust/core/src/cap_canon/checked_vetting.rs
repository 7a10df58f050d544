// crates/cap_canon/src/checked_vetting.rt without its contracts, by tools/erase: that text is proved, this one is only tested.
//! Vetting a message, and whether it is its own canonical copy, in one walk.

use crate::cap_canon::in_order::{InOrder, NotCanonical};
use crate::cap_frame::Segments;
use crate::cap_spec::StrictRefusal;
use crate::cap_vet::{limits_under, vet_with, vet_with_turn, Demands, Limits, Stopped, Vetted};

/// Whether a message has one segment, and its words are its canonical copy (encoding:
/// Canonicalization). With a capability it isn't. Takes no memory, and makes no copy.
pub fn is_canonical<M: Segments>(v: &Vetted<'_, M>) -> bool {
    // For the proof alone: what is known of the message.
    let _report = v.report();
    match check_in_order(v.message(), Limits::greatest()) {
        Ok((_, canonical)) => canonical,
        Err(Stopped::Refused(_)) => false,
        Err(Stopped::ByTurn(NotCanonical)) => false,
    }
}

/// Vets a message under demands, as [`vet_with`] does, and returns with an accepted message whether
/// it is canonical, as [`is_canonical`] says (encoding: Canonicalization). Walks once through a
/// canonical message. After a difference in the first quarter of the message it walks a second time,
/// without comparing. After a later one it does so only if the message is amplified, or at a far
/// pointer that common readers may reject. Allocates nothing, and makes no copy.
///
/// # Errors
///
/// Those of [`vet_with`].
// It is inlined, since its result would be copied from call to call.
#[inline(always)]
pub fn check_with<'m, M: Segments>(
    message: &'m M,
    limits: Limits,
    demands: Demands,
) -> Result<(Vetted<'m, M>, bool), StrictRefusal> {
    match check_in_order(message, limits_under(message, limits, demands)) {
        Ok(checked) => return Ok(checked),
        Err(Stopped::Refused(refusal)) => return Err(StrictRefusal::Refused(refusal)),
        Err(Stopped::ByTurn(NotCanonical)) => {}
    }
    match vet_with(message, limits, demands) {
        Ok(vetted) => Ok((vetted, false)),
        Err(refusal) => Err(refusal),
    }
}

// The same within these limits, of a message that is strict then. The walk may stop where it finds
// that the message isn't canonical.
#[inline(always)]
fn check_in_order<'m, M: Segments>(
    message: &'m M,
    limits: Limits,
) -> Result<(Vetted<'m, M>, bool), Stopped<NotCanonical>> {
    match vet_with_turn::<M, InOrder>(message, limits) {
        Ok((vetted, turn)) => {
            if vetted.report().caps != 0 {
                return Ok((vetted, false));
            }
            Ok((vetted, turn.end == message.len(0)))
        }
        Err(stopped) => Err(stopped),
    }
}
