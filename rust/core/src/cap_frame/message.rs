// crates/cap_frame/src/message.rt without its contracts, by tools/erase: that text is proved, this one is only tested.
//! Messages held in memory.

#[cfg(feature = "std")]
use crate::rattle::Vec;

use crate::cap_frame::segments::Segments;

/// A message as a vector of words for each segment.
#[cfg(feature = "std")]
#[derive(Debug)]
pub struct WordMessage {
    segments: Vec<Vec<u64>>,
}

#[cfg(feature = "std")]
impl WordMessage {
    /// The message of these segments. `None` for no segment or more than 512, and where a segment
    /// has more than 4294967295 words.
    pub fn new(segments: Vec<Vec<u64>>) -> Option<WordMessage> {
        if segments.is_empty() || segments.len() > 512 {
            return None;
        }
        for words in &segments {
            if words.len() > 4294967295 {
                return None;
            }
        }
        Some(WordMessage { segments })
    }
}

#[cfg(feature = "std")]
impl Segments for WordMessage {
    fn count(&self) -> u32 {
        self.segments.len() as u32
    }

    fn len(&self, s: u32) -> u32 {
        self.segments[s as usize].len() as u32
    }

    fn word(&self, s: u32, w: u32) -> u64 {
        self.segments[s as usize][w as usize]
    }
}

/// A message of one segment, whose words are borrowed.
#[derive(Clone, Copy, Debug)]
pub struct OneSegment<'w> {
    words: &'w [u64],
}

impl<'w> OneSegment<'w> {
    /// The message whose one segment has these words, or `None` for more than 4294967295 of them.
    pub fn new(words: &'w [u64]) -> Option<OneSegment<'w>> {
        if words.len() > 4294967295 {
            None
        } else {
            Some(OneSegment { words })
        }
    }
}

impl<'w> Segments for OneSegment<'w> {
    fn count(&self) -> u32 {
        1
    }

    fn len(&self, _s: u32) -> u32 {
        self.words.len() as u32
    }

    fn word(&self, _s: u32, w: u32) -> u64 {
        self.words[w as usize]
    }
}
