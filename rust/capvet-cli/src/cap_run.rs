// crates/cap_run/src/lib.rt without its contracts, by tools/erase: that text is proved, this one is only tested.
//! The engines of the program. Most read the messages of a stream and write a text or a copy for
//! each. The others copy the words of a source.
//!
//! The texts, and the errors with which a run ends, are those of `cap_text`.

mod engines;
mod fault;
mod settings;
mod waiting;

pub use crate::cap_text::{
    dump, write_copy_fault, write_explained_fault, write_fault, write_guessed_fault,
    write_single_fault, Cause, CopyFault, ExplainedFault, RunFault, SingleFault,
};
pub use capvet_core::cap_path::{parse_path, PathFault};
pub use capvet_core::cap_spec::Step;
pub use capvet_core::cap_vet::{Demands, Limits};
pub use engines::canon::{run_canon, run_canon_with};
pub use engines::check::{run_check, run_check_with};
pub use engines::dump::{run_dump, run_dump_with};
pub use engines::exclusive::{run_vet_exclusive, run_vet_exclusive_with};
pub use engines::explain::{run_explain, run_explain_exclusive};
pub use engines::explained::{run_explain_exclusive_json, run_explain_json};
pub use engines::filter::run_filter;
pub use engines::get::{run_get, run_get_with};
pub use engines::hash::{run_digest_with, run_hash, run_hash_with};
pub use engines::json::{run_check_json, run_hash_json, run_vet_exclusive_json, run_vet_json};
pub use engines::segments::{run_segments, run_segments_with};
pub use engines::single::{end_single, read_single};
pub use engines::transcode::{run_pack, run_pack_with, run_unpack, run_unpack_with};
pub use engines::vet::{run_vet, run_vet_with};
pub use settings::{ExplainSettings, FilterForm, Outcome, Settings};
pub use waiting::{FlushBeforeWaiting, FlushNever, Flushing, Peek};
