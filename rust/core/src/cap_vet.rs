// crates/cap_vet/src/lib.rt without its contracts, by tools/erase: that text is proved, this one is only tested.
//! Limits and demands, vetted, strict and exclusive messages, their nodes and views, and getters for
//! messages that were not vetted.

mod demanded_vetting;
mod exclusiveness;
mod nodes;
mod strictness;
mod vetting;

pub use crate::cap_ptr::Place;
pub use crate::cap_spec::{Kind, Lax, Reason, Refusal, Step, StrictRefusal};
pub use crate::cap_walk::{
    charge_up_to, limits_under, nulls, Demands, FirstTurn, Limits, Report, Stopped, Turn,
};
pub use demanded_vetting::vet_with;
pub use exclusiveness::exclusive::Exclusive;
pub use exclusiveness::exclusive_buffer::ExclusiveFault;
#[cfg(feature = "std")]
pub use exclusiveness::exclusive_vetting::vet_exclusive;
pub use exclusiveness::exclusive_vetting::ExclusiveRefusal;
pub use exclusiveness::marks::marks_for;
pub use nodes::budget::Budget;
pub use nodes::charged::get_charged;
pub use nodes::getting::get_with;
pub use nodes::node::Node;
pub use nodes::path_start::PathStart;
pub use nodes::step_source::StepSource;
pub use nodes::struct_elements::StructElements;
pub use nodes::vetted::Vetted;
pub use nodes::view::View;
pub use strictness::strict::Strict;
pub use strictness::strict_vetting::vet_strict;
pub use vetting::{vet, vet_with_turn};
