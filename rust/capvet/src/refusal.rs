//! The reasons why a message isn't accepted.

use crate::calls::{length_of, Answer, RawReport};
use crate::{Pointer, Position};
use core::fmt;
use core::str::FromStr;

// (each reason with its number in `include/capvet.h`)
macro_rules! reasons {
    (
        $(#[$about:meta])*
        pub enum $reasons:ident {
            $($(#[$text:meta])* $name:ident = $code:literal,)+
        }
    ) => {
        $(#[$about])*
        #[derive(Clone, Copy, Debug, PartialEq, Eq, PartialOrd, Ord, Hash)]
        #[non_exhaustive]
        pub enum $reasons {
            $($(#[$text])* $name = $code,)+
        }

        impl $reasons {
            /// All reasons.
            pub const ALL: &'static [Self] = &[$(Self::$name,)+];

            /// The name that the program prints, which is that of the variant.
            #[must_use]
            pub const fn name(self) -> &'static str {
                match self {
                    $(Self::$name => stringify!($name),)+
                }
            }

            /// The number in `capvet.h`.
            #[must_use]
            pub const fn code(self) -> u32 {
                self as u32
            }
        }

        impl fmt::Display for $reasons {
            fn fmt(&self, f: &mut fmt::Formatter<'_>) -> fmt::Result {
                f.write_str(self.name())
            }
        }

        impl FromStr for $reasons {
            type Err = UnknownReason;

            fn from_str(name: &str) -> Result<Self, UnknownReason> {
                let mut all = Self::ALL.iter().copied();
                all.find(|it| it.name() == name).ok_or(UnknownReason)
            }
        }
    };
}
pub(crate) use reasons;

reasons! {
    /// The reason of a refusal, by its name in the lines of the program.
    pub enum Reason {
        /// The first segment has no words.
        NoRoot = 32,
        /// The pointer, or its landing pad, has a kind that the format reserves.
        Reserved = 33,
        /// A far pointer names a segment that the message doesn't have.
        SegmentMissing = 34,
        /// The landing pad is not all inside its segment.
        PadOutside = 35,
        /// A landing pad of one word is a far pointer.
        PadIsFar = 36,
        /// A landing pad of two words doesn't begin with a far pointer to one word.
        PadNotFar = 37,
        /// The tag of a two-word landing pad is neither a struct pointer nor a list pointer.
        TagKind = 38,
        /// This tag has an offset.
        TagOffset = 39,
        /// The object is not all inside its segment.
        OutOfSegment = 40,
        /// The tag of a list of structs is not a struct pointer.
        CompositeTag = 41,
        /// The elements of a list of structs take more words than the list has.
        CompositeOverrun = 42,
        /// The pointer leads deeper than the limit. Pointers that lead in a circle are refused so, or as `WordLimit`.
        DepthLimit = 43,
        /// The charge up to this pointer is more than the limit, or more than [`Limits::SLACK`](crate::Limits::SLACK) words
        /// above those of the segments.
        WordLimit = 44,
        /// Not strict: a landing pad of one word is zero.
        NullPad = 19,
        /// Not strict: a landing pad of two words leads into a segment without words.
        EmptySegment = 20,
        /// Not strict: a landing pad of one word is a capability.
        CapabilityPad = 22,
        /// Not strict: the message has 512 segments, one more than common readers take.
        ManySegments = 23,
        /// The pointer uses a word that is already in use. Only [`Limits::exclusive`](crate::Limits::exclusive) looks for it.
        Overlap = 18,
    }
}

/// The error of a text that names no [`Reason`], or no [`DifferenceReason`](crate::DifferenceReason).
#[derive(Clone, Copy, Debug, PartialEq, Eq, Hash)]
#[non_exhaustive]
pub struct UnknownReason;

impl fmt::Display for UnknownReason {
    fn fmt(&self, f: &mut fmt::Formatter<'_>) -> fmt::Result {
        f.write_str("no such reason")
    }
}

/// A message that is refused.
#[derive(Clone, Copy, Debug, PartialEq, Eq, Hash)]
#[non_exhaustive]
pub struct Refusal {
    /// The first reason that applies at the pointer.
    pub reason: Reason,
    /// The first pointer in preorder at which anything is wrong, or a limit is exceeded. `None` if the refusal is about no
    /// pointer: for [`Reason::NoRoot`] and [`Reason::ManySegments`].
    pub pointer: Option<Pointer>,
    /// The length of the frame in bytes, table included.
    pub length: usize,
    /// The number of its segments.
    pub segments: u32,
}

/// As in the lines of the program.
impl fmt::Display for Refusal {
    fn fmt(&self, f: &mut fmt::Formatter<'_>) -> fmt::Result {
        let none = Pointer {
            position: Position {
                segment: 0,
                word: 0,
            },
            number: 0,
        };
        let Pointer { position, number } = self.pointer.unwrap_or(none);
        write!(f, "refused {} at {position} pointers {number}", self.reason)
    }
}

/// The error of bytes that hold no complete frame within the limits, or more than the frame.
#[derive(Clone, Copy, Debug, PartialEq, Eq, Hash)]
#[non_exhaustive]
pub enum FrameError {
    /// There are no bytes, as at the end of a stream.
    NoMessage,
    /// The segment table says more than 512 segments.
    #[non_exhaustive]
    TooManySegments {
        /// Their number.
        count: u64,
    },
    /// The segments together have more words than [`Limits::message_words`](crate::Limits::message_words).
    #[non_exhaustive]
    TooLarge {
        /// Their number.
        words: u64,
    },
    /// The bytes end inside the frame, or inside a word.
    #[non_exhaustive]
    Truncated {
        /// The least number of bytes that gets further: 8, then those of the table, then those of the whole frame. It is a
        /// claim of the sender, at most [`Limits::frame_bound`](crate::Limits::frame_bound).
        required: u64,
    },
    /// Trailing bytes follow the message.
    #[non_exhaustive]
    Trailing {
        /// Their number.
        bytes: u64,
        /// The length of the frame before them, table included.
        length: usize,
        /// The number of its segments.
        segments: u32,
    },
    /// The length of a separate segment is not a multiple of 8. Only `vet_segments` looks for it.
    #[non_exhaustive]
    BadSegment {
        /// The number of the first such segment, from 0.
        index: usize,
    },
}

impl FrameError {
    // The error of an answer about the frame of a message.
    fn of(answer: Answer, raw: &RawReport) -> Option<Self> {
        Some(match answer {
            Answer::NO_MESSAGE => Self::NoMessage,
            Answer::TOO_MANY_SEGMENTS => Self::TooManySegments { count: raw.detail },
            Answer::TOO_LARGE => Self::TooLarge { words: raw.detail },
            Answer::TRUNCATED => Self::Truncated {
                required: raw.input_required,
            },
            Answer::TRAILING => Self::Trailing {
                bytes: raw.detail,
                length: length_of(raw),
                segments: raw.segments,
            },
            _ => return None,
        })
    }

    // The error of a call that reads the frame alone.
    pub(crate) fn of_frame(answer: Answer, raw: &RawReport) -> Self {
        Self::of(answer, raw).unwrap_or_else(|| panic!("{answer:?} is no answer about a frame"))
    }

    /// The name that the program prints, which is that of the variant.
    #[must_use]
    pub const fn name(&self) -> &'static str {
        match self {
            Self::NoMessage => "NoMessage",
            Self::TooManySegments { .. } => "TooManySegments",
            Self::TooLarge { .. } => "TooLarge",
            Self::Truncated { .. } => "Truncated",
            Self::Trailing { .. } => "Trailing",
            Self::BadSegment { .. } => "BadSegment",
        }
    }

    /// The least number of bytes that gets further, if more bytes may help: 8 if there are none, and otherwise that of
    /// [`FrameError::Truncated`].
    #[must_use]
    pub const fn required(&self) -> Option<u64> {
        match self {
            Self::NoMessage => Some(8),
            Self::Truncated { required } => Some(*required),
            _ => None,
        }
    }
}

/// As in the lines of the program, where it has one.
impl fmt::Display for FrameError {
    fn fmt(&self, f: &mut fmt::Formatter<'_>) -> fmt::Result {
        match self {
            Self::NoMessage => f.write_str(self.name()),
            Self::TooManySegments { count: number }
            | Self::TooLarge { words: number }
            | Self::Trailing { bytes: number, .. } => write!(f, "{} {number}", self.name()),
            Self::Truncated { required } => write!(f, "Truncated, {required} bytes are required"),
            Self::BadSegment { index } => write!(f, "BadSegment {index}"),
        }
    }
}

/// The error of a message that isn't accepted.
#[derive(Clone, Copy, Debug, PartialEq, Eq, Hash)]
#[non_exhaustive]
pub enum VetError {
    /// The bytes hold no complete frame within the limits, or more than the frame.
    Frame(
        /// The reason.
        FrameError,
    ),
    /// The message is refused.
    Refused(
        /// The reason, and the pointer.
        Refusal,
    ),
}

impl VetError {
    // The error of an answer other than that of an accepted message.
    pub(crate) fn of(answer: Answer, raw: &RawReport) -> Self {
        let mut all = Reason::ALL.iter().copied();
        let reason = match all.find(|it| it.code() == answer.0) {
            Some(reason) => reason,
            None => return Self::Frame(FrameError::of_frame(answer, raw)),
        };
        Self::Refused(Refusal {
            reason,
            pointer: (raw.pointers > 0).then(|| Pointer::of(raw)),
            length: length_of(raw),
            segments: raw.segments,
        })
    }

    /// The name of the answer that the program prints: that of the [`Reason`], or of the [`FrameError`].
    #[must_use]
    pub const fn name(&self) -> &'static str {
        match self {
            Self::Frame(error) => error.name(),
            Self::Refused(refusal) => refusal.reason.name(),
        }
    }

    /// The length of the frame in bytes, table included, or 0 if there is no complete frame.
    #[must_use]
    pub const fn length(&self) -> usize {
        match self {
            Self::Frame(FrameError::Trailing { length, .. })
            | Self::Refused(Refusal { length, .. }) => *length,
            Self::Frame(_) => 0,
        }
    }
}

/// As in the lines of the program, where it has one.
impl fmt::Display for VetError {
    fn fmt(&self, f: &mut fmt::Formatter<'_>) -> fmt::Result {
        match self {
            Self::Frame(error) => error.fmt(f),
            Self::Refused(refusal) => refusal.fmt(f),
        }
    }
}
