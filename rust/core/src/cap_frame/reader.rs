// crates/cap_frame/src/reader.rt without its contracts, by tools/erase: that text is proved, this one is only tested.
//! Reading messages from a source of words.

use crate::cap_frame::fault::{frame_fault, FrameFault, SizeLimit};
use crate::cap_frame::message::WordMessage;
use crate::cap_frame::segments::Segments;
use crate::cap_frame::table::{buffers, next_table, read_contents, Sizes};
use crate::cap_words::WordSource;
use crate::rattle::alloc::Global;

/// Reads the next message of a stream, or `None` if the stream ends before its first word
/// (encoding: Serialization Over a Stream).
///
/// A message is a table of its segments' sizes and then the words of the segments, in order. The
/// table's padding may hold anything. Everything is allocated after the table and before the first
/// word of a segment: a vector for each segment, with capacity for its words.
///
/// # Errors
///
/// - [`FrameFault::TooManySegments`]: the first word gives more than 512 segments. It was taken,
///   and no more.
/// - [`FrameFault::TooLarge`]: the sizes sum to more words than the limit. The table was taken, and
///   no more.
/// - [`FrameFault::Truncated`]: the source ended inside the message, at this byte.
/// - [`FrameFault::Device`]: the device of the source failed.
/// - [`FrameFault::Memory`]: an allocation failed. The table was taken, and no more.
/// - [`FrameFault::Spent`]: an earlier error had closed the source.
///
/// After a message, and after `TooManySegments`, `TooLarge` and `Memory`, the source can be used
/// on. After `Truncated` it returns `Spent` if its input ended inside a word or a packed group, and
/// `None` if it ended between words.
pub fn read_message<S: WordSource>(
    alloc: Global,
    source: &mut S,
    limit: SizeLimit,
) -> Result<Option<WordMessage>, FrameFault> {
    let mut sizes = Sizes::new();
    match next_table(source, limit, &mut sizes) {
        Ok(true) => {}
        Ok(false) => return Ok(None),
        Err(fault) => return Err(fault),
    }
    let mut segments = if let Ok(segments) = buffers(alloc, &sizes) {
        segments
    } else {
        return Err(FrameFault::Memory);
    };
    if let Err(fault) = read_contents(source, &sizes, &mut segments) {
        return Err(frame_fault(fault));
    }
    Ok(Some(WordMessage::new(segments).unwrap()))
}
