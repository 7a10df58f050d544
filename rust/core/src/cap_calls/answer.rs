// crates/cap_calls/src/answer.rt without its contracts, by tools/erase: that text is proved, this one is only tested.
//! What a call answers, by its number.

use crate::cap_calls::front::NoFrame;
use crate::cap_frame::FrontFault;
use crate::cap_spec::{Lax, Reason, StrictRefusal};

/// What a call answers. The numbers are those of `include/capvet.h` and never change.
#[derive(Clone, Copy, Debug, PartialEq, Eq)]
pub enum Answer {
    /// What was asked for was done, or is so.
    Good = 0,
    /// There are no bytes.
    NoMessage = 1,
    /// The table announces more than 512 segments.
    TooManySegments = 2,
    /// The table's sizes sum to more words than the limit, or there are too many packed bytes.
    TooLarge = 3,
    /// The bytes end inside the message, packed ones inside a group, or those of words inside a
    /// word.
    Truncated = 4,
    /// The bytes are a message and more bytes, which the call doesn't allow.
    Trailing = 5,
    /// A limit is above its maximum, a reserved field isn't 0, or a flag or the form is unknown to
    /// this call. Or no call leaves this state of an unpacking.
    BadLimits = 8,
    /// The output buffer is too small.
    BufferTooSmall = 9,
    /// The text isn't a path.
    BadPath = 10,
    /// The length of a segment is no multiple of 8.
    BadSegment = 12,
    /// The message is accepted, and isn't its own canonical copy.
    NotCanonical = 16,
    /// The message is accepted, and has a capability, so that it has no canonical copy.
    HasCapability = 17,
    /// The message is accepted, and a word of it is used twice.
    Overlap = 18,
    /// The message is valid, and isn't strict, for [`Lax::NullPad`].
    NullPad = 19,
    /// The same for [`Lax::EmptySegment`].
    EmptySegment = 20,
    /// Nothing is at the path.
    NoNode = 21,
    /// The same for [`Lax::CapabilityPad`].
    CapabilityPad = 22,
    /// The message is valid, and isn't strict: it has 512 segments.
    ManySegments = 23,
    /// The message isn't valid, for [`Reason::NoRoot`]. Those after it are for the reasons of their
    /// names.
    NoRoot = 32,
    Reserved = 33,
    SegmentMissing = 34,
    PadOutside = 35,
    PadIsFar = 36,
    PadNotFar = 37,
    TagKind = 38,
    TagOffset = 39,
    OutOfSegment = 40,
    CompositeTag = 41,
    CompositeOverrun = 42,
    DepthLimit = 43,
    WordLimit = 44,
}

impl Answer {
    /// Its number in the header.
    #[inline]
    pub fn number(self) -> u32 {
        self as u32
    }

    // The answer for bytes without a frame.
    pub(crate) fn of_cause(cause: NoFrame) -> Answer {
        match cause {
            NoFrame::BadLimits => Answer::BadLimits,
            NoFrame::NoMessage => Answer::NoMessage,
            NoFrame::Fault(FrontFault::TooManySegments { .. }) => Answer::TooManySegments,
            NoFrame::Fault(FrontFault::TooLarge { .. }) => Answer::TooLarge,
            NoFrame::Fault(FrontFault::Truncated { .. }) => Answer::Truncated,
        }
    }

    // The answer for a message that is refused.
    #[inline]
    pub(crate) fn of_refusal(refusal: StrictRefusal) -> Answer {
        match refusal {
            StrictRefusal::Refused(refusal) => Answer::of_reason(refusal.reason),
            StrictRefusal::ManySegments => Answer::ManySegments,
            StrictRefusal::Pointer { what, .. } => Answer::of_lax(what),
        }
    }

    // The answer for a pointer of this form.
    fn of_lax(what: Lax) -> Answer {
        match what {
            Lax::NullPad => Answer::NullPad,
            Lax::EmptySegment => Answer::EmptySegment,
            Lax::CapabilityPad => Answer::CapabilityPad,
        }
    }

    // The answer for a message that isn't valid for this reason.
    #[inline]
    fn of_reason(reason: Reason) -> Answer {
        match reason {
            Reason::NoRoot => Answer::NoRoot,
            Reason::Reserved => Answer::Reserved,
            Reason::SegmentMissing => Answer::SegmentMissing,
            Reason::PadOutside => Answer::PadOutside,
            Reason::PadIsFar => Answer::PadIsFar,
            Reason::PadNotFar => Answer::PadNotFar,
            Reason::TagKind => Answer::TagKind,
            Reason::TagOffset => Answer::TagOffset,
            Reason::OutOfSegment => Answer::OutOfSegment,
            Reason::CompositeTag => Answer::CompositeTag,
            Reason::CompositeOverrun => Answer::CompositeOverrun,
            Reason::DepthLimit => Answer::DepthLimit,
            Reason::WordLimit => Answer::WordLimit,
        }
    }
}
