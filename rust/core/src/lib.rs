//! The proved text of capvet without its contracts. Use the crate `capvet`: this one changes with each version.
//!
//! Each module is a crate of the folder `crates`, written in Rattle, which is Rust with contracts. There each function is
//! proved to meet its contract. `tools/erase` leaves the contracts out. What rustc makes of the rest isn't proved: it is tested
//! to return what the proved build returns. `erased.txt` counts what was left out and rewritten.

#![no_std]
#![forbid(unsafe_code)]
// (constants, imports and parameters that only contracts use, and labels that name loops for their invariants)
#![allow(dead_code, unused_imports, unused_labels, unused_variables)]
// (an older clippy doesn't know all lints below)
#![allow(unknown_lints)]
// What clippy would write in another way, and why the sources don't.
#![allow(
    // `?`, closures and these methods add steps to a proof, so a result is matched; other places were a `let .. else`
    clippy::manual_map,
    clippy::manual_ok_err,
    clippy::match_like_matches_macro,
    clippy::question_mark,
    clippy::redundant_pattern_matching,
    clippy::unused_unit,
    // an invariant speaks of the index
    clippy::needless_range_loop,
    // contracts name lifetimes
    clippy::needless_lifetimes,
    // a message of `Segments` has a count, and `next` of a source has a result
    clippy::len_zero,
    clippy::new_without_default,
    clippy::should_implement_trait,
    // what a walk knows of a pointer is passed in registers
    clippy::too_many_arguments
)]

#[cfg(feature = "std")]
extern crate std;

#[cfg(target_pointer_width = "16")]
compile_error!("a message may have more bytes than a pointer of 16 bits can address");

pub mod cap_buffer;
pub mod cap_calls;
pub mod cap_canon;
pub mod cap_difference;
pub mod cap_explain;
pub mod cap_frame;
pub mod cap_pack;
pub mod cap_path;
pub mod cap_ptr;
pub mod cap_spec;
pub mod cap_trace;
pub mod cap_vet;
pub mod cap_walk;
pub mod cap_words;
pub mod rattle;
