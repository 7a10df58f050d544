// crates/cap_vet/src/demanded_vetting.rt without its contracts, by tools/erase: that text is proved, this one is only tested.
//! Vetting a message under demands.

use crate::cap_frame::Segments;
use crate::cap_spec::StrictRefusal;
use crate::cap_vet::nodes::vetted::Vetted;
use crate::cap_vet::strictness::strict_vetting::vet_strict;
use crate::cap_vet::vetting::vet;
use crate::cap_walk::{limits_under, Demands, Limits};

/// Vets a message under demands (profile). Where an unamplified message is demanded, the word limit
/// is the smaller one of that in `limits` and the words of the message's segments and 4,096 more.
/// Without demands this is [`crate::vet`]. Walks once. Allocates nothing.
///
/// # Errors
///
/// - [`StrictRefusal::Refused`]: `vet` refuses the message within that word limit.
/// - [`StrictRefusal::ManySegments`], [`StrictRefusal::Pointer`]: a strict message is demanded, and
///   the message is accepted and isn't strict. See [`crate::vet_strict`].
pub fn vet_with<'m, M: Segments>(
    message: &'m M,
    limits: Limits,
    demands: Demands,
) -> Result<Vetted<'m, M>, StrictRefusal> {
    let limits = limits_under(message, limits, demands);
    if demands.strict {
        return match vet_strict(message, limits) {
            Ok(strict) => Ok(strict.into_vetted()),
            Err(refusal) => Err(refusal),
        };
    }
    match vet(message, limits) {
        Ok(vetted) => Ok(vetted),
        Err(refusal) => Err(StrictRefusal::Refused(refusal)),
    }
}
