// crates/cap_walk/src/lib.rt without its contracts, by tools/erase: that text is proved, this one is only tested.
//! The walk through a message in preorder, one pointer word a turn: its limits, what is demanded of a
//! message beside them, and what a walk reports.

mod charging;
mod demands;
mod limits;
mod looking;
mod null_words;
mod pointer_run;
mod report;
mod turn;
mod walking;

pub use charging::charge_up_to;
pub use demands::{limits_under, unamplified_words, Demands};
pub use limits::Limits;
pub use looking::follow_within;
pub use null_words::nulls;
pub use report::Report;
pub use turn::{FirstTurn, Stopped, Turn};
pub use walking::walk;
