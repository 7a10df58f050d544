//! The program `capvet` as plain Rust. All but this file and the modules `clap`, `closed` and `rattle` is the text of crates/
//! without its contracts.

#![deny(unsafe_code)]
// (constants, imports and parameters that only contracts use, and labels that name loops for their invariants)
#![allow(dead_code, unused_imports, unused_labels, unused_variables)]
// (an older clippy doesn't know all lints below)
#![allow(unknown_lints)]
// What clippy would write in another way, and why the sources don't.
#![allow(
    // `?` and these forms add steps to a proof, so a result is matched; other places were a `let .. else`
    clippy::manual_map,
    clippy::manual_ok_err,
    clippy::match_like_matches_macro,
    clippy::question_mark,
    clippy::redundant_pattern_matching,
    clippy::unused_unit,
    // the hasher of the sources takes a slice
    clippy::needless_borrows_for_generic_args,
    // an element of an array is taken out by a star
    clippy::explicit_auto_deref,
    // contracts name lifetimes
    clippy::needless_lifetimes,
    // the first of several files has a place of its own
    clippy::needless_range_loop,
    // the number of levels shows that a recursion ends
    clippy::only_used_in_recursion,
    // an engine takes its allocator, both ends and its settings apart
    clippy::too_many_arguments
)]

mod cap_cmd;
mod cap_commands;
mod cap_run;
mod cap_text;
mod capvet;
mod clap;
mod closed;
mod rattle;

fn main() {
    let status = capvet::main(rattle::HostRuntime::new());
    std::process::exit(i32::from(status.0))
}
