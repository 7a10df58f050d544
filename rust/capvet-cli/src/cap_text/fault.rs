// crates/cap_text/src/fault.rt without its contracts, by tools/erase: that text is proved, this one is only tested.
//! Why an engine ended before its input did. The engines are those of `cap_run`.

use capvet_core::cap_frame::{FrameFault, TableSums};
use capvet_core::cap_spec::{CanonFault, StrictRefusal};
use capvet_core::cap_vet::Refusal;
use capvet_core::cap_words::{OutFault, SourceFault};

/// Why an engine ended before its stream did.
#[derive(Clone, Copy, Debug, PartialEq, Eq)]
pub struct RunFault {
    /// The number of the message at which the engine ended, counted from 0.
    ///
    /// If the output failed, the texts of `message` messages had been put without an error. Of the
    /// next text the output took a prefix, or it took all of it and the flush failed.
    pub message: u32,
    /// Why it ended there.
    pub cause: Cause,
}

/// Why an engine ended at a message.
#[derive(Clone, Copy, Debug, PartialEq, Eq)]
pub enum Cause {
    /// One more message was read than the settings allow.
    TooManyMessages,
    /// No message could be read.
    Frame(FrameFault),
    /// Writing or flushing the text failed. The output took a prefix of the text, or all of it.
    Output(OutFault),
    /// The message was refused, so that it has no canonical copy. Only `run_canon` and
    /// `run_canon_with` end there.
    Refused(Refusal),
    /// The message was accepted and isn't strict. Only `run_canon_with` ends there, if a strict
    /// message is demanded. It isn't [`StrictRefusal::Refused`].
    NotStrict(StrictRefusal),
    /// The message was accepted, and no canonical copy of it was made. Only `run_canon` and
    /// `run_canon_with` end there.
    Canon(CanonFault),
    /// The message was accepted, and the allocation of the marks for its words failed. Only
    /// `run_vet_exclusive`, `run_vet_exclusive_with` and an exclusive `run_filter` mark words. Or it
    /// was the allocation of the copy that `run_hash`, `run_hash_with` and `run_digest_with` make. Or
    /// the message was read, and it was the allocation of the frame that `read_single` gives.
    Memory,
}

/// Why an input isn't exactly one message.
#[derive(Clone, Copy, Debug, PartialEq, Eq)]
pub enum SingleFault {
    /// It has no message.
    NoMessage,
    /// It goes on after the first message. `byte` is the position in the input after that message.
    /// The bytes of a packed input are counted packed.
    Trailing { byte: u64 },
    /// Reading failed, so that it isn't known whether the input goes on.
    Run(RunFault),
}

/// What is known of a message at which a stream breaks off, beside the fault.
#[derive(Clone, Copy, Debug, PartialEq, Eq)]
pub struct StreamBreak {
    /// The position of the message's first byte in the input. The bytes of a packed input are counted
    /// packed.
    pub start: u64,
    /// Whether the input is packed.
    pub packed: bool,
    /// The most words that a message may have.
    pub limit: u64,
    /// What its table says, if that is whole: after [`FrameFault::Truncated`] and
    /// [`FrameFault::TooLarge`]. `None` after other faults.
    pub table: Option<TableSums>,
    /// Whether the input ends inside a word, or inside a group if it is packed, after
    /// [`FrameFault::Truncated`]. `false` after other faults.
    pub is_cut: bool,
}

/// Why an engine that explains ended before its stream did.
#[derive(Clone, Copy, Debug, PartialEq, Eq)]
pub struct ExplainedFault {
    /// Why, and at which message.
    pub fault: RunFault,
    /// What is known of the message, if the cause is [`Cause::Frame`].
    pub at: StreamBreak,
}

/// Why a copy of words ended before its source did.
#[derive(Clone, Copy, Debug, PartialEq, Eq)]
pub enum CopyFault {
    /// One more word was read than may be copied. The words before it were put, and the sink was
    /// finished.
    TooManyWords,
    /// The source returned this error. The words before it were put, and the sink was finished.
    Source(SourceFault),
    /// The output failed, as words were put or as the sink was finished. The output took a prefix
    /// of the text of the words. If it failed at a piece of the words, no word after that piece was
    /// read.
    Output(OutFault),
}
