// crates/cap_frame/src/table.rt without its contracts, by tools/erase: that text is proved, this one is only tested.
//! The table at the start of a message: how many segments it has, and how many words each of them.

#[cfg(feature = "std")]
use crate::rattle::Vec;

use crate::cap_frame::fault::{frame_fault, FrameFault, SizeLimit};
use crate::cap_words::{SourceFault, WordSource};
use crate::rattle::alloc::{AllocError, Global};
use arrayvec::ArrayVec;

/// The sizes of a message's segments, in words.
pub(crate) type Sizes = ArrayVec<u32, 512>;

/// Empties a table. Most messages have one segment: of their tables one number is taken, without the
/// call that sets all of them to zero.
#[inline(always)]
pub(crate) fn empty(table: &mut Sizes) {
    if table.len() == 1 {
        table.pop();
    } else {
        table.clear();
    }
}

/// What is kept of the table of a message that can't be read.
#[derive(Clone, Copy, Debug, PartialEq, Eq)]
pub struct TableSums {
    /// How many segments the message has.
    pub segments: u32,
    /// How many words they have together.
    pub words: u64,
    /// How many bytes the whole message has, its table included.
    pub bytes: u64,
}

// The number in the low four bytes of a word.
fn low_half(word: u64) -> u32 {
    (word % 0x1_0000_0000) as u32
}

// The number in the high four bytes of a word.
fn high_half(word: u64) -> u32 {
    (word / 0x1_0000_0000) as u32
}

// Appends the numbers of a word, as far as there are sizes to come. What is left over is padding.
fn push_halves(sizes: &mut Sizes, count: usize, word: u64) {
    sizes.push(low_half(word));
    if sizes.len() < count {
        sizes.push(high_half(word));
    }
}

// Reads the rest of a table, after its first word, which gives at most 512 segments.
#[inline(always)]
fn read_sizes<S: WordSource>(
    source: &mut S,
    first: u64,
    sizes: &mut Sizes,
) -> Result<(), SourceFault> {
    let count = low_half(first) as usize + 1;
    sizes.push(high_half(first));
    'table: for _ in 0..count / 2 {
        match next_word(source) {
            Ok(word) => push_halves(sizes, count, word),
            Err(fault) => return Err(fault),
        }
    }
    Ok(())
}

/// The sum of the sizes of at most 512 segments.
pub(crate) fn total(sizes: &[u32]) -> u64 {
    sizes.iter().map(|size| u64::from(*size)).sum()
}

/// What is kept of sizes, or `None` where there are none.
fn sums_of(sizes: &[u32]) -> Option<TableSums> {
    if sizes.is_empty() {
        return None;
    }
    let segments = sizes.len() as u32;
    let words = total(sizes);
    Some(TableSums {
        segments,
        words,
        bytes: 8 * (u64::from(segments / 2 + 1) + words),
    })
}

/// What is kept of sizes after a fault: `None` unless the fault is `TooLarge` or `Truncated`.
pub(crate) fn sums_after(fault: FrameFault, sizes: &[u32]) -> Option<TableSums> {
    match fault {
        FrameFault::TooLarge { .. } => sums_of(sizes),
        FrameFault::Truncated { .. } => sums_of(sizes),
        FrameFault::TooManySegments { .. } => None,
        FrameFault::Device => None,
        FrameFault::Memory => None,
        FrameFault::Spent => None,
    }
}

/// Reads the table of the next message. `false` where the stream ends before its first word.
// Inlined, with what it calls, since a stream may be of many small messages.
#[inline(always)]
pub(crate) fn next_table<S: WordSource>(
    source: &mut S,
    limit: SizeLimit,
    sizes: &mut Sizes,
) -> Result<bool, FrameFault> {
    let first = match source.next() {
        Ok(Some(first)) => first,
        Ok(None) => return Ok(false),
        Err(fault) => return Err(frame_fault(fault)),
    };
    let last = low_half(first);
    if last >= 512 {
        return Err(FrameFault::TooManySegments {
            count: u64::from(last) + 1,
        });
    }
    if let Err(fault) = read_sizes(source, first, sizes) {
        sizes.clear();
        return Err(frame_fault(fault));
    }
    let words = total(sizes);
    if words > limit.words() {
        return Err(FrameFault::TooLarge { words });
    }
    Ok(true)
}

/// The next word of a message. That there is none is then a fault.
// Inlined, since it is called at each word of a message.
#[inline(always)]
pub(crate) fn next_word<S: WordSource>(source: &mut S) -> Result<u64, SourceFault> {
    match source.next() {
        Ok(Some(word)) => Ok(word),
        Ok(None) => Err(SourceFault::Truncated {
            byte: source.position(),
        }),
        Err(fault) => Err(fault),
    }
}

/// Reads as many words as a segment has, into a vector with capacity for them.
#[cfg(feature = "std")]
pub(crate) fn read_words<S: WordSource>(
    source: &mut S,
    size: u32,
    words: &mut Vec<u64>,
) -> Result<(), SourceFault> {
    'words: for _ in 0..size {
        match next_word(source) {
            Ok(word) => words.push_reserved(word),
            Err(fault) => return Err(fault),
        }
    }
    Ok(())
}

/// Empty vectors with capacity for the words of segments of these sizes.
#[cfg(feature = "std")]
pub(crate) fn buffers(alloc: Global, sizes: &[u32]) -> Result<Vec<Vec<u64>>, AllocError> {
    let mut buffers = Vec::with_capacity(alloc, sizes.len())?;
    'sizes: for size in sizes {
        buffers.push(Vec::with_capacity(alloc, *size as usize)?)?;
    }
    Ok(buffers)
}

/// Reads the words of all segments.
#[cfg(feature = "std")]
pub(crate) fn read_contents<S: WordSource>(
    source: &mut S,
    sizes: &[u32],
    segments: &mut Vec<Vec<u64>>,
) -> Result<(), SourceFault> {
    'segments: for (s, size) in sizes.iter().enumerate() {
        match read_words(source, *size, &mut segments[s]) {
            Ok(()) => {}
            Err(fault) => return Err(fault),
        }
    }
    Ok(())
}
