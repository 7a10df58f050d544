// crates/cap_frame/src/outline.rt without its contracts, by tools/erase: that text is proved, this one is only tested.
//! What is kept of a message whose other words are passed over.

use crate::cap_frame::table::{total, Sizes};

/// How a message is cut into segments, and its root word: the first word of segment 0.
#[derive(Debug)]
pub struct Outline {
    pub(crate) sizes: Sizes,
    pub(crate) root: Option<u64>,
}

impl Outline {
    /// The outline of no message: no segments and no root word.
    pub fn new() -> Outline {
        Outline {
            sizes: Sizes::new(),
            root: None,
        }
    }

    // Makes it the outline of no message again.
    pub(crate) fn clear(&mut self) {
        let Outline { sizes, root } = self;
        sizes.clear();
        *root = None;
    }

    /// How many segments there are.
    pub fn count(&self) -> u32 {
        self.sizes.len() as u32
    }

    /// How many words each segment has.
    pub fn sizes(&self) -> &[u32] {
        self.sizes.as_slice()
    }

    /// How many words all segments have together.
    pub fn words(&self) -> u64 {
        total(&self.sizes)
    }

    /// The root word, or `None` where segment 0 has no words or there are no segments.
    pub fn root(&self) -> Option<u64> {
        self.root
    }
}
