// crates/cap_ptr/src/lib.rt without its contracts, by tools/erase: that text is proved, this one is only tested.
//! Pointer words: their fields and forms, and what each leads to.

mod following;
mod forms;
mod near;
mod place;
mod shapes;

pub use crate::cap_spec::Reason;
pub use following::follow;
pub use forms::{
    cap_index, code, data_size, far_segment, kind, list_size, middle, pad, pointer_size, two,
    Pointer,
};
pub use near::{
    near_row, near_target, struct_list, structs_target, tag_at, words_of_elements, Row,
};
pub use place::Place;
pub use shapes::{
    element_bits, extent, is_structs, levels_of_elements, levels_taken, Followed, Shape, Target,
};
