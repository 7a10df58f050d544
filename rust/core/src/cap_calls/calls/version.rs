// crates/cap_calls/src/calls/version.rt without its contracts, by tools/erase: that text is proved, this one is only tested.
//! The version of the calls.

/// The version of the calls: 65536 times its major number, 256 times its minor number, and the
/// number of its patch.
pub fn version() -> u32 {
    131072
}
