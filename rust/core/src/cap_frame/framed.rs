// crates/cap_frame/src/framed.rt without its contracts, by tools/erase: that text is proved, this one is only tested.
//! A framed message at the start of borrowed bytes.

use crate::cap_frame::byte_message::ByteView;
use crate::cap_frame::segment_tables::{fill_starts, SegmentTables};
use crate::cap_frame::segments::Segments;
use crate::cap_frame::table::Sizes;
use byteorder::{ByteOrder, LittleEndian};

/// The framed message at the start of borrowed bytes: its table is read, and its words are not
/// copied.
#[derive(Clone, Copy)]
pub struct Framed<'b> {
    // of the frame; more may follow it
    pub(crate) bytes: &'b [u8],
    // how many segments there are
    pub(crate) count: u32,
    // how many words they have together
    pub(crate) words: u64,
}

impl<'b> Framed<'b> {
    /// How many segments the message has, 1 to 512.
    #[inline]
    pub fn count(&self) -> u32 {
        self.count
    }

    /// How many words the segments have together, at most 268435456.
    #[inline]
    pub fn words(&self) -> u64 {
        self.words
    }

    /// How many bytes the frame has: those of its table and of its words.
    #[inline]
    pub fn length(&self) -> usize {
        8 * (self.count as usize / 2 + 1 + self.words as usize)
    }

    // Puts the tables of the message into `tables`, in place of their contents.
    fn fill(&self, tables: &mut SegmentTables) {
        fill_sizes(self.bytes, self.count, &mut tables.sizes);
        fill_starts(&tables.sizes, &mut tables.starts);
    }

    /// The message as its segments, whose tables are put into `tables`.
    #[inline]
    pub fn view(&self, tables: &'b mut SegmentTables) -> ByteView<'b> {
        self.fill(tables);
        let after = &self.bytes[8 * (self.count as usize / 2 + 1)..];
        ByteView::over(after, &tables.starts, &tables.sizes)
    }

    /// The message as its one segment, whose size is put into `size`, or `None` if it has more.
    #[inline]
    pub fn one_segment(&self, size: &'b mut [u32; 1]) -> Option<ByteView<'b>> {
        if self.count != 1 {
            return None;
        }
        *size = [self.words as u32];
        Some(ByteView::over(&self.bytes[8..], &[0], size))
    }
}

// The sizes of `count` segments, from the table at the start of bytes.
fn fill_sizes(bytes: &[u8], count: u32, sizes: &mut Sizes) {
    sizes.clear();
    'sizes: for s in 0..count as usize {
        sizes.push(LittleEndian::read_u32(&bytes[4 + 4 * s..]));
    }
}
