// crates/cap_commands/src/lib.rt without its contracts, by tools/erase: that text is proved, this one is only tested.
//! The commands of the program, with their options and their texts of help.

mod commands;
mod help;

pub use commands::{capvet_command, DEFAULT_DEPTH, DEFAULT_WORDS};
