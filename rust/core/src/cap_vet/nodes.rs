// crates/cap_vet/src/nodes.rt without its contracts, by tools/erase: that text is proved, this one is only tested.
//! Nodes of a message: reached by path, and what they hold.

pub(crate) mod budget;
pub(crate) mod charged;
pub(crate) mod found;
pub(crate) mod getting;
pub(crate) mod near_arrival;
pub(crate) mod near_found;
pub(crate) mod node;
pub(crate) mod path_end;
pub(crate) mod path_start;
pub(crate) mod spot;
pub(crate) mod step_source;
pub(crate) mod struct_elements;
pub(crate) mod vetted;
pub(crate) mod view;
