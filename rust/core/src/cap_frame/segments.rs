// crates/cap_frame/src/segments.rt without its contracts, by tools/erase: that text is proved, this one is only tested.
//! What a message is to everything above: a list of segments.

/// The segments of a message: 1 to 512 of them, each of at most 4294967295 words.
pub trait Segments {
    /// How many segments there are.
    fn count(&self) -> u32;

    /// How many words segment `s` has, where `s` counts from 0. The caller makes sure that it
    /// exists.
    fn len(&self, s: u32) -> u32;

    /// Word `w` of segment `s`, both counted from 0. The caller makes sure that the word exists.
    fn word(&self, s: u32, w: u32) -> u64;

    /// The bytes of `words` words of segment `s` from word `start` on, eight a word, the lowest byte
    /// first (encoding: 64-bit Words). `None` if there are no such words, and if the message doesn't
    /// have its words as bytes: [`Segments::word`] then gives each. Allocates nothing.
    #[inline]
    fn bytes_at(&self, s: u32, start: u32, words: u32) -> Option<&[u8]> {
        None
    }
}
