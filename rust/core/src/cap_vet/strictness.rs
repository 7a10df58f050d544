// crates/cap_vet/src/strictness.rt without its contracts, by tools/erase: that text is proved, this one is only tested.
//! Strict messages: those without the forms that common readers reject.

pub(crate) mod lax;
pub(crate) mod path_strictness;
pub(crate) mod strict;
pub(crate) mod strict_turn;
pub(crate) mod strict_vetting;
