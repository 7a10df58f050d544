// crates/cap_frame/src/writer.rt without its contracts, by tools/erase: that text is proved, this one is only tested.
//! Writing messages to a sink of words, and the bytes of a table.

use crate::cap_frame::segments::Segments;
use crate::cap_words::{bytes_of, SinkFault, WordSink};

/// How many bytes the longest table has: a number, 512 sizes and padding, four bytes each.
pub const TABLE_BYTES: usize = 2056;

// Number k of the table: how many segments there are besides the first, then the size of each, then
// padding.
fn number<M: Segments>(message: &M, k: u32) -> u32 {
    if k == 0 {
        message.count() - 1
    } else if k <= message.count() {
        message.len(k - 1)
    } else {
        0
    }
}

// Word w of the table.
fn table_word<M: Segments>(message: &M, w: u32) -> u64 {
    let low = number(message, 2 * w);
    let high = number(message, 2 * w + 1);
    u64::from(low) + u64::from(high) * 0x1_0000_0000
}

/// Writes the bytes of a message's table at the start of `table`: how many segments there are besides
/// the first, the size of each, and zero padding up to a whole word (encoding: Serialization Over a
/// Stream). Returns how many bytes these are. The bytes of `table` after them may be changed.
///
/// There are no errors. Allocates nothing.
pub fn table_into<M: Segments>(message: &M, table: &mut [u8; TABLE_BYTES]) -> usize {
    let words = message.count() / 2 + 1;
    'table: for w in 0..words {
        let at = 8 * w as usize;
        table[at..at + 8].copy_from_slice(&bytes_of(table_word(message, w)));
    }
    8 * words as usize
}

// Puts the table after its first word.
fn put_sizes<K: WordSink, M: Segments>(sink: &mut K, message: &M) -> Result<(), SinkFault> {
    'table: for w in 0..message.count() / 2 {
        if let Err(fault) = sink.put(table_word(message, w + 1)) {
            return Err(fault);
        }
    }
    Ok(())
}

// Puts the words of segment s.
fn put_segment<K: WordSink, M: Segments>(
    sink: &mut K,
    message: &M,
    s: u32,
) -> Result<(), SinkFault> {
    'words: for w in 0..message.len(s) {
        if let Err(fault) = sink.put(message.word(s, w)) {
            return Err(fault);
        }
    }
    Ok(())
}

// Puts the words of all segments.
fn put_contents<K: WordSink, M: Segments>(sink: &mut K, message: &M) -> Result<(), SinkFault> {
    'segments: for s in 0..message.count() {
        if let Err(fault) = put_segment(sink, message, s) {
            return Err(fault);
        }
    }
    Ok(())
}

/// Puts a framed message: the table of its segments' sizes with zero padding, and then the words of
/// the segments, in order (encoding: Serialization Over a Stream). It doesn't finish the sink, so
/// that another message may follow.
///
/// # Errors
///
/// The error of the sink at some word. The sink then returns `Spent` for good, and what its output
/// took is a beginning of the text.
pub fn write_message<K: WordSink, M: Segments>(sink: &mut K, message: &M) -> Result<(), SinkFault> {
    if let Err(fault) = sink.put(table_word(message, 0)) {
        return Err(fault);
    }
    if let Err(fault) = put_sizes(sink, message) {
        return Err(fault);
    }
    if let Err(fault) = put_contents(sink, message) {
        return Err(fault);
    }
    Ok(())
}
