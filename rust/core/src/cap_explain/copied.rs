// crates/cap_explain/src/copied.rt without its contracts, by tools/erase: that text is proved, this one is only tested.
//! What an accepted message has at its first difference, and what its canonical copy has there.

use crate::cap_difference::{Difference, DifferenceReason};
use crate::cap_explain::rows::{data_left, is_null_pointer, pointers_left, row_of, Row};
use crate::cap_explain::target::Target;
use crate::cap_explain::words::word_of;
use crate::cap_frame::Segments;
use crate::cap_ptr::{code, element_bits, extent, kind, list_size};

/// What a copy has in the place of a word.
#[derive(Clone, Copy)]
pub(crate) enum Copied {
    /// This word.
    Word(u64),
    /// No word.
    Nothing,
    /// There is no copy, since the word leads to a capability.
    NoCopy,
}

/// A word of the message that a copy doesn't have so.
#[derive(Clone, Copy)]
pub(crate) struct DifferingWord {
    /// Counted from 0.
    pub(crate) segment: u32,
    /// Counted from 0 in its segment.
    pub(crate) word: u64,
    pub(crate) copied: Copied,
}

/// A copy's pointer to a struct of these sizes (encoding: Structs, Canonicalization).
fn copied_struct(offset: u32, data_words: u16, pointers: u16) -> u64 {
    if data_words == 0 && pointers == 0 {
        return 0xffff_fffc;
    }
    4 * u64::from(offset)
        + 0x1_0000_0000 * u64::from(data_words)
        + 0x1_0000_0000_0000 * u64::from(pointers)
}

/// Its pointer to a list (encoding: Lists).
fn copied_list(offset: u32, code: u8, size: u32) -> u64 {
    1 + 4 * u64::from(offset) + 0x1_0000_0000 * u64::from(code) + 0x8_0000_0000 * u64::from(size)
}

/// Its pointer to the structs of a row: one, or a list, as the word `shape` says.
fn copied_row<M: Segments>(message: &M, offset: u32, shape: u64, row: Row) -> u64 {
    let data_words = data_left(message, row);
    let pointers = pointers_left(message, row);
    if kind(shape) == 0 {
        return copied_struct(offset, data_words, pointers);
    }
    let each = u64::from(data_words) + u64::from(pointers);
    let words = u64::from(row.count) * each % (1 << 29);
    copied_list(offset, 7, words as u32)
}

/// Its pointer to an object of the shape word `shape`, with these structs.
fn copied_object<M: Segments>(message: &M, offset: u32, shape: u64, row: Option<Row>) -> u64 {
    match row {
        Some(row) => copied_row(message, offset, shape, row),
        None => copied_list(offset, code(shape), list_size(shape)),
    }
}

/// What a copy has for the pointer word `word`, if the copy's object begins `offset` words after it.
fn copied_pointer<M: Segments>(
    message: &M,
    offset: u32,
    word: u64,
    target: &Option<Target>,
) -> Copied {
    match target {
        Some(target) => {
            let row = row_of(message, target);
            Copied::Word(copied_object(message, offset, target.word, row))
        }
        None => {
            if is_null_pointer(message, word) {
                Copied::Word(0)
            } else {
                Copied::NoCopy
            }
        }
    }
}

/// The pointer word that the difference names, with the copy's object at the end of the copy.
fn differing_pointer<M: Segments>(
    message: &M,
    difference: &Difference,
    word: u64,
    target: &Option<Target>,
) -> DifferingWord {
    let after = u64::from(difference.word) + 1;
    let offset = difference.end.saturating_sub(after) % (1 << 30);
    DifferingWord {
        segment: difference.segment,
        word: u64::from(difference.word),
        copied: copied_pointer(message, offset as u32, word, target),
    }
}

/// The last word of a list of values, of which a copy has the bits of the values.
fn differing_values<M: Segments>(message: &M, target: &Target) -> Option<DifferingWord> {
    let start = target.start.saturating_sub(u64::from(target.excess));
    let word = (start + u64::from(extent(target.word))).saturating_sub(1);
    match word_of(message, target.segment, word) {
        Some(last) => {
            let count = u64::from(list_size(target.word));
            let bits = u64::from(element_bits(code(target.word))) * count % 64;
            Some(DifferingWord {
                segment: target.segment,
                word,
                copied: Copied::Word(last % (1 << bits)),
            })
        }
        None => None,
    }
}

/// Of structs: the tag, the first word after them, or the last data word or pointer of the first of
/// them.
fn differing_row(reason: DifferenceReason, row: Row) -> Option<DifferingWord> {
    let each = u64::from(row.data_words) + u64::from(row.pointers);
    let (word, copied) = match reason {
        DifferenceReason::EmptyList => (row.first.saturating_sub(1), Copied::Word(0)),
        DifferenceReason::Surplus => (row.first + u64::from(row.count) * each, Copied::Nothing),
        DifferenceReason::DataZero => (
            (row.first + u64::from(row.data_words)).saturating_sub(1),
            Copied::Nothing,
        ),
        DifferenceReason::PointerNull => ((row.first + each).saturating_sub(1), Copied::Nothing),
        _ => return None,
    };
    Some(DifferingWord {
        segment: row.segment,
        word,
        copied,
    })
}

/// The same, if there are structs.
fn differing_structs(reason: DifferenceReason, row: Option<Row>) -> Option<DifferingWord> {
    match row {
        Some(row) => differing_row(reason, row),
        None => None,
    }
}

/// The word of a target that a copy doesn't have so.
fn differing_object<M: Segments>(
    message: &M,
    reason: DifferenceReason,
    target: &Option<Target>,
) -> Option<DifferingWord> {
    match target {
        Some(target) => match reason {
            DifferenceReason::Bits => differing_values(message, target),
            _ => differing_structs(reason, row_of(message, target)),
        },
        None => None,
    }
}

/// The word that a copy doesn't have so at the first difference, if there is one: the pointer word
/// `word` with this target, or a word of the target.
pub(crate) fn differing_word<M: Segments>(
    message: &M,
    difference: &Difference,
    word: u64,
    target: &Option<Target>,
) -> Option<DifferingWord> {
    match difference.reason {
        DifferenceReason::Far
        | DifferenceReason::Capability
        | DifferenceReason::EmptyStruct
        | DifferenceReason::Place => Some(differing_pointer(message, difference, word, target)),
        reason => differing_object(message, reason, target),
    }
}
