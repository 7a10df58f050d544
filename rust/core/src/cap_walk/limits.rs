// crates/cap_walk/src/limits.rt without its contracts, by tools/erase: that text is proved, this one is only tested.
//! The limits of a walk through a message.

use crate::cap_frame::MOST_WORDS;

/// The deepest level that a depth limit may have.
const MOST_DEPTH: u32 = 256;

/// The most words that a walk may be charged, and the deepest level of an object
/// (encoding: Security Considerations).
#[derive(Clone, Copy, Debug, PartialEq, Eq)]
pub struct Limits {
    words: u64,
    depth: u32,
}

impl Limits {
    /// Limits of `words` words and `depth` levels, or `None` for more than 268435456 words or more
    /// than 256 levels.
    pub fn new(words: u64, depth: u32) -> Option<Limits> {
        if words > MOST_WORDS || depth > MOST_DEPTH {
            return None;
        }
        Some(Limits { words, depth })
    }

    /// How many words a walk may be charged, at most 268435456.
    pub fn words(&self) -> u64 {
        self.words
    }

    /// The deepest level that an object may have, at most 256.
    pub fn depth(&self) -> u32 {
        self.depth
    }

    /// The limits of 268435456 words and 256 levels, which no limits exceed.
    pub fn greatest() -> Limits {
        Limits {
            words: MOST_WORDS,
            depth: MOST_DEPTH,
        }
    }

    /// The same depth limit, with a word limit of at most `words`.
    pub(crate) fn lowered(self, words: u64) -> Limits {
        Limits {
            words: self.words.min(words),
            depth: self.depth,
        }
    }
}
