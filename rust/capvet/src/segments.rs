//! The segments of a frame.

use crate::calls::{self, Answer};
use crate::{FrameError, Limits};
use core::convert::TryInto;
use core::iter::FusedIterator;

/// An iterator over the segments of a frame; see [`segments`] and [`Message::segments`](crate::Message::segments).
#[derive(Clone, Debug)]
#[must_use = "an iterator does nothing before it is asked"]
pub struct Segments<'b> {
    // what is left of the sizes in the table, and of the bytes after it
    sizes: &'b [u8],
    rest: &'b [u8],
}

impl<'b> Segments<'b> {
    // The segments of a frame, of which there are so many.
    pub(crate) fn of(frame: &'b [u8], count: u32) -> Self {
        // (the table: the number of segments less one, the words of each, and a half word that makes it whole)
        let count = count as usize;
        let (table, rest) = frame.split_at(8 * (count / 2 + 1));
        let sizes = &table[4..4 * (count + 1)];
        Self { sizes, rest }
    }
}

/// Returns an iterator over the segments of the frame that `bytes` begin with, each as its bytes. It reads the table, and
/// checks no pointer: for a vetted message there is [`Message::segments`](crate::Message::segments). Bytes may follow the frame.
/// It allocates nothing.
///
/// # Errors
///
/// The errors of [`frame_length`](crate::frame_length), with the greatest limit on the words of a message.
///
/// # Examples
///
/// ```
/// // Two segments, of one word and of none.
/// let message = [1, 0, 0, 0, 1, 0, 0, 0, 0, 0, 0, 0, 0, 0, 0, 0, 7, 0, 0, 0, 0, 0, 0, 0];
/// let mut segments = capvet::segments(&message)?;
/// assert_eq!(segments.len(), 2);
/// assert_eq!(segments.next(), Some(&message[16..]));
/// assert_eq!(segments.next(), Some(&[][..]));
/// assert_eq!(segments.next(), None);
/// # Ok::<(), capvet::FrameError>(())
/// ```
pub fn segments(bytes: &[u8]) -> Result<Segments<'_>, FrameError> {
    let (answer, raw) = calls::frame(bytes, &Limits::LARGEST);
    match answer {
        Answer::OK => Ok(Segments::of(bytes, raw.segments)),
        _ => Err(FrameError::of_frame(answer, &raw)),
    }
}

impl<'b> Iterator for Segments<'b> {
    type Item = &'b [u8];

    fn next(&mut self) -> Option<Self::Item> {
        let words = u32::from_le_bytes(self.sizes.get(..4)?.try_into().ok()?);
        let (segment, rest) = self.rest.split_at(8 * words as usize);
        (self.sizes, self.rest) = (&self.sizes[4..], rest);
        Some(segment)
    }

    fn size_hint(&self) -> (usize, Option<usize>) {
        let count = self.sizes.len() / 4;
        (count, Some(count))
    }
}

impl ExactSizeIterator for Segments<'_> {}

impl FusedIterator for Segments<'_> {}
