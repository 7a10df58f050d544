//! What a call accepts.

use core::fmt;

/// What is accepted: three numbers, and what else is allowed or refused.
///
/// Begin with [`Limits::DEFAULT`] and change what you need: each method `with_..` returns a changed copy. A higher number, or
/// one more `allow_..`, never refuses more.
///
/// # Examples
///
/// ```
/// use capvet::Limits;
///
/// const LIMITS: Limits = Limits::DEFAULT.with_message_words(65_536).with_charge(65_536).with_depth(32);
/// assert_eq!((LIMITS.depth(), LIMITS.frame_bound()), (32, 526_344));
/// // Numbers that aren't constants, as from a file:
/// assert_eq!(Limits::new(65_536, 65_536, 32), Ok(LIMITS));
/// let error = Limits::new(65_536, 65_536, 1000).unwrap_err();
/// assert_eq!(error.to_string(), "depth is 1000, at most 256 is allowed");
/// ```
///
/// A constant above its maximum doesn't compile:
///
/// ```compile_fail
/// const LIMITS: capvet::Limits = capvet::Limits::DEFAULT.with_depth(1000);
/// println!("{LIMITS:?}");
/// ```
#[derive(Clone, Copy, Debug, PartialEq, Eq, Hash)]
pub struct Limits {
    message_words: u64,
    charge: u64,
    depth: u32,
    allow_nonstrict: bool,
    allow_amplified: bool,
    exclusive: bool,
}

impl Limits {
    /// The maximum of [`message_words`](Limits::message_words), in words.
    pub const MAX_MESSAGE_WORDS: u64 = 268_435_456;

    /// The maximum of [`charge`](Limits::charge), in words.
    pub const MAX_CHARGE: u64 = 268_435_456;

    /// The maximum of [`depth`](Limits::depth), in levels.
    pub const MAX_DEPTH: u32 = 256;

    /// How many words the charge may be above the words of the segments, unless more is allowed.
    pub const SLACK: u64 = 4096;

    /// A message and a charge of at most 8,388,608 words (64 MiB), and at most 64 levels. The message has to be strict, and its
    /// charge at most [`SLACK`](Limits::SLACK) words above the words of its segments.
    pub const DEFAULT: Self = Self {
        message_words: 8_388_608,
        charge: 8_388_608,
        depth: 64,
        allow_nonstrict: false,
        allow_amplified: false,
        exclusive: false,
    };

    // Each message that was ever accepted is within these.
    pub(crate) const LARGEST: Self = Self {
        message_words: Self::MAX_MESSAGE_WORDS,
        charge: Self::MAX_CHARGE,
        depth: Self::MAX_DEPTH,
        allow_nonstrict: true,
        allow_amplified: true,
        exclusive: false,
    };

    /// Returns limits of these numbers, where nothing else is allowed: the most words of a message, the highest charge in words,
    /// and the deepest level.
    ///
    /// # Errors
    ///
    /// - [`LimitsError`]: a number is above its maximum.
    pub const fn new(message_words: u64, charge: u64, depth: u32) -> Result<Self, LimitsError> {
        if message_words > Self::MAX_MESSAGE_WORDS {
            return Err(LimitsError::of(
                "message_words",
                message_words,
                Self::MAX_MESSAGE_WORDS,
            ));
        }
        if charge > Self::MAX_CHARGE {
            return Err(LimitsError::of("charge", charge, Self::MAX_CHARGE));
        }
        if depth > Self::MAX_DEPTH {
            return Err(LimitsError::of(
                "depth",
                depth as u64,
                Self::MAX_DEPTH as u64,
            ));
        }
        Ok(Self {
            message_words,
            charge,
            depth,
            ..Self::DEFAULT
        })
    }

    /// Sets the most words in all segments.
    ///
    /// # Panics
    ///
    /// If it is above [`MAX_MESSAGE_WORDS`](Limits::MAX_MESSAGE_WORDS).
    #[must_use]
    pub const fn with_message_words(mut self, message_words: u64) -> Self {
        assert!(message_words <= Self::MAX_MESSAGE_WORDS, "too many words");
        self.message_words = message_words;
        self
    }

    /// Sets the most words that a full traversal may read: the charge. An object that two pointers reach counts twice.
    ///
    /// # Panics
    ///
    /// If it is above [`MAX_CHARGE`](Limits::MAX_CHARGE).
    #[must_use]
    pub const fn with_charge(mut self, charge: u64) -> Self {
        assert!(charge <= Self::MAX_CHARGE, "too many words of charge");
        self.charge = charge;
        self
    }

    /// Sets the deepest level of an object. The root object has level 1.
    ///
    /// # Panics
    ///
    /// If it is above [`MAX_DEPTH`](Limits::MAX_DEPTH).
    #[must_use]
    pub const fn with_depth(mut self, depth: u32) -> Self {
        assert!(depth <= Self::MAX_DEPTH, "too many levels");
        self.depth = depth;
        self
    }

    /// Sets whether the message need not be strict. Common readers reject such messages, at least in part: see
    /// [`Reason::NullPad`](crate::Reason::NullPad) and the three reasons after it.
    #[must_use]
    pub const fn with_allow_nonstrict(mut self, allow: bool) -> Self {
        self.allow_nonstrict = allow;
        self
    }

    /// Sets whether a full traversal may read more than [`SLACK`](Limits::SLACK) words above the words of the segments. If it
    /// may, a small message can make a reader work for long.
    #[must_use]
    pub const fn with_allow_amplified(mut self, allow: bool) -> Self {
        self.allow_amplified = allow;
        self
    }

    /// Sets whether a message that uses a word twice is refused, for [`Reason::Overlap`](crate::Reason::Overlap). A call then
    /// allocates one bit for each word of the message. Without `alloc` there is [`vet_exclusive`](crate::vet_exclusive).
    #[cfg(feature = "alloc")]
    #[must_use]
    pub const fn with_exclusive(mut self, exclusive: bool) -> Self {
        self.exclusive = exclusive;
        self
    }

    /// The most words in all segments.
    #[must_use]
    pub const fn message_words(&self) -> u64 {
        self.message_words
    }

    /// The most words that a full traversal may read.
    #[must_use]
    pub const fn charge(&self) -> u64 {
        self.charge
    }

    /// The deepest level of an object.
    #[must_use]
    pub const fn depth(&self) -> u32 {
        self.depth
    }

    /// Whether the message need not be strict.
    #[must_use]
    pub const fn allow_nonstrict(&self) -> bool {
        self.allow_nonstrict
    }

    /// Whether a full traversal may read more than [`SLACK`](Limits::SLACK) words above the words of the segments.
    #[must_use]
    pub const fn allow_amplified(&self) -> bool {
        self.allow_amplified
    }

    /// Whether a message that uses a word twice is refused.
    #[must_use]
    pub const fn exclusive(&self) -> bool {
        self.exclusive
    }

    // Limits that accept the canonical words of each message that these accept. They have at most one word more than the
    // charge.
    pub(crate) const fn of_copies(mut self) -> Self {
        if self.message_words <= self.charge {
            self.message_words = match self.charge {
                Self::MAX_CHARGE => Self::MAX_MESSAGE_WORDS,
                charge => charge + 1,
            };
        }
        self.allow_amplified = true;
        self
    }

    /// The greatest length of a frame within these limits, in bytes, table included. A receiver holds at most as many.
    #[must_use]
    pub const fn frame_bound(&self) -> u64 {
        self.message_words * 8 + 2056
    }
}

impl Default for Limits {
    fn default() -> Self {
        Self::DEFAULT
    }
}

/// A number of [`Limits::new`] is above its maximum.
#[derive(Clone, Copy, Debug, PartialEq, Eq, Hash)]
#[non_exhaustive]
pub struct LimitsError {
    /// The name of the number, such as `depth`.
    pub name: &'static str,
    /// The number.
    pub number: u64,
    /// Its maximum.
    pub maximum: u64,
}

impl LimitsError {
    const fn of(name: &'static str, number: u64, maximum: u64) -> Self {
        Self {
            name,
            number,
            maximum,
        }
    }
}

impl fmt::Display for LimitsError {
    fn fmt(&self, f: &mut fmt::Formatter<'_>) -> fmt::Result {
        let Self {
            name,
            number,
            maximum,
        } = self;
        write!(f, "{name} is {number}, at most {maximum} is allowed")
    }
}
