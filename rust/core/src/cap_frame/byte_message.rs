// crates/cap_frame/src/byte_message.rt without its contracts, by tools/erase: that text is proved, this one is only tested.
//! Messages in one buffer, and the view that borrows one.

#[cfg(feature = "std")]
use crate::rattle::Vec;

use crate::cap_frame::segment_tables::Starts;
use crate::cap_frame::segments::Segments;
use crate::cap_frame::table::Sizes;
use crate::rattle::alloc::Global;
use byteorder::{ByteOrder, LittleEndian};

/// A message whose segments follow one another in one buffer.
// Nothing is derived that looks at its fields: bytes that an earlier message left would show.
#[cfg(feature = "std")]
pub struct ByteMessage {
    // the words of all segments in order; after them there may be bytes that an earlier message
    // left
    pub(crate) bytes: Vec<u8>,
    pub(crate) sizes: Sizes,
    // where each segment starts, in words
    pub(crate) starts: Starts,
}

/// Makes the tables those of one segment without words.
pub(crate) fn blank(sizes: &mut Sizes, starts: &mut Starts) {
    sizes.clear();
    sizes.push(0);
    starts.clear();
    starts.push(0);
}

#[cfg(feature = "std")]
impl ByteMessage {
    /// A message of one segment without words. It takes no memory.
    pub fn blank(alloc: Global) -> ByteMessage {
        let mut sizes = Sizes::new();
        let mut starts = Starts::new();
        blank(&mut sizes, &mut starts);
        ByteMessage {
            bytes: Vec::new(alloc),
            sizes,
            starts,
        }
    }

    /// The message as its segments.
    #[inline]
    pub fn view<'m>(&'m self) -> ByteView<'m> {
        ByteView::over(&self.bytes, &self.starts, &self.sizes)
    }
}

/// A message whose segments are borrowed bytes, one after the other, each word in eight of them.
///
/// It shows nothing of bytes after its last segment.
#[derive(Clone, Copy)]
pub struct ByteView<'b> {
    // of the contents; more may follow them
    bytes: &'b [u8],
    // where each segment starts, in words
    starts: &'b [u32],
    // how many words each has
    sizes: &'b [u32],
}

impl<'b> ByteView<'b> {
    /// The message of these bytes, whose segments start and end where the tables say.
    #[inline]
    pub(crate) fn over(bytes: &'b [u8], starts: &'b [u32], sizes: &'b [u32]) -> ByteView<'b> {
        ByteView {
            bytes,
            starts,
            sizes,
        }
    }

    /// A message of one segment, whose words these bytes encode, without a table. Its size in words
    /// is put into `size`. `None` if the bytes aren't whole words, or are more than 268435456 of
    /// them.
    #[inline]
    pub fn of_words(bytes: &'b [u8], size: &'b mut [u32; 1]) -> Option<ByteView<'b>> {
        if bytes.len() % 8 != 0 || bytes.len() > 8 * 268_435_456 {
            return None;
        }
        *size = [(bytes.len() / 8) as u32];
        Some(ByteView::over(bytes, &[0], size))
    }

    /// The bytes of `words` words of segment `s` from word `start` on, unchanged (encoding: 64-bit
    /// Words). The caller makes sure that the segment and these words exist.
    #[inline]
    pub fn bytes(&self, s: u32, start: u32, words: u32) -> &'b [u8] {
        let at = (self.starts[s as usize] + start) as usize;
        words_at(self.bytes, at, words as usize)
    }

    /// All bytes of segment `s`, unchanged, eight for each word (encoding: 64-bit Words). `None` if
    /// there is no such segment. Allocates nothing.
    #[inline]
    pub fn segment(&self, s: u32) -> Option<&'b [u8]> {
        if s >= self.count() {
            return None;
        }
        let at = self.starts[s as usize] as usize;
        Some(words_at(self.bytes, at, self.len(s) as usize))
    }
}

/// The bytes of `words` words from word `at` on, unchanged. The caller makes sure that these bytes
/// have them. Allocates nothing.
#[inline(always)]
pub fn words_at<'b>(bytes: &'b [u8], at: usize, words: usize) -> &'b [u8] {
    &bytes[8 * at..8 * (at + words)]
}

impl<'b> Segments for ByteView<'b> {
    #[inline]
    fn count(&self) -> u32 {
        self.sizes.len() as u32
    }

    #[inline]
    fn len(&self, s: u32) -> u32 {
        self.sizes[s as usize]
    }

    #[inline]
    fn word(&self, s: u32, w: u32) -> u64 {
        let at = 8 * (self.starts[s as usize] + w) as usize;
        // A range with an end: rustc then compares the place once with the length of the bytes.
        LittleEndian::read_u64(&self.bytes[at..at + 8])
    }

    #[inline]
    fn bytes_at(&self, s: u32, start: u32, words: u32) -> Option<&[u8]> {
        if s >= self.count() || u64::from(start) + u64::from(words) > u64::from(self.len(s)) {
            return None;
        }
        Some(self.bytes(s, start, words))
    }
}
