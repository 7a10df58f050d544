// crates/cap_run/src/settings.rt without its contracts, by tools/erase: that text is proved, this one is only tested.
//! The settings of an engine, the form of a filter, and the counts that an engine returns.

use capvet_core::cap_frame::SizeLimit;
use capvet_core::cap_vet::Limits;

/// The limits of a run over a stream, for every engine.
#[derive(Clone, Copy, Debug, PartialEq, Eq)]
pub struct Settings {
    /// The limits of a walk over a message.
    pub limits: Limits,
    /// The most words of a message, in all its segments together.
    pub size: SizeLimit,
    /// The most messages of a stream.
    pub messages: u32,
}

/// The settings of an engine that explains: the limits of [`Settings`], what is known of the input,
/// and what is asked.
#[derive(Clone, Copy, Debug, PartialEq, Eq)]
pub struct ExplainSettings {
    /// The limits of a walk over a message.
    pub limits: Limits,
    /// The most words of a message, in all its segments together.
    pub size: SizeLimit,
    /// The most messages of a stream.
    pub messages: u32,
    /// Whether the input is packed, so that the source unpacks it. Where the engine names a byte of
    /// the input, it says so.
    pub packed: bool,
    /// Whether to write of an accepted message whether it is canonical, and why not.
    pub canonical: bool,
}

/// The form of a run of [`run_filter`](crate::run_filter). With all of them false it lets a message
/// through as [`run_vet_with`](crate::run_vet_with) accepts it, as a plain frame.
#[derive(Clone, Copy, Debug, PartialEq, Eq)]
pub struct FilterForm {
    /// Refuse a message that uses a word twice, as
    /// [`run_vet_exclusive_with`](crate::run_vet_exclusive_with) does.
    pub exclusive: bool,
    /// End the run after the first refused message.
    pub stop: bool,
    /// Write packed frames: the table and each segment are packed by themselves.
    pub pack: bool,
}

/// The counts of a stream that was read to its end.
#[derive(Clone, Copy, Debug, PartialEq, Eq)]
pub struct Outcome {
    /// How many messages there were.
    pub messages: u32,
    /// How many of them were refused.
    pub refused: u32,
    /// How many of them were accepted and aren't canonical. [`run_check`](crate::run_check) looks
    /// at that, and [`run_explain`](crate::run_explain) if it is asked to.
    /// [`run_hash`](crate::run_hash) counts those with a capability, which have no canonical copy.
    /// For the other engines it is 0.
    pub noncanonical: u32,
}
