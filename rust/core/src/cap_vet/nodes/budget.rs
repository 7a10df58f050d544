// crates/cap_vet/src/nodes/budget.rt without its contracts, by tools/erase: that text is proved, this one is only tested.
//! The words that charged getters may spend.

/// A number of words that getters may still charge.
#[derive(Clone, Copy, Debug, PartialEq, Eq)]
pub struct Budget {
    pub(crate) words: u64,
}

impl Budget {
    /// A budget of `words` words.
    pub fn new(words: u64) -> Budget {
        Budget { words }
    }

    /// How many words are left.
    pub fn left(&self) -> u64 {
        self.words
    }
}
