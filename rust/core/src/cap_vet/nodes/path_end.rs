// crates/cap_vet/src/nodes/path_end.rt without its contracts, by tools/erase: that text is proved, this one is only tested.
//! Where a path leads in a message that wasn't vetted.

use crate::cap_spec::Refusal;
use crate::cap_vet::nodes::charged::Arrival;

/// Where a path leads.
#[derive(Clone, Copy)]
pub(crate) enum PathEnd {
    /// To something.
    To(Arrival),
    /// To nothing. This is what its last step but those that lead to nothing arrived at.
    Early(Arrival),
    /// It is refused.
    Refused(Refusal),
}
