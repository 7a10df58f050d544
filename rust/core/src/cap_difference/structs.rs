// crates/cap_difference/src/structs.rt without its contracts, by tools/erase: that text is proved, this one is only tested.
//! Why a struct isn't as a canonical copy has it.

use crate::cap_difference::elements::{end_in_nulls, end_in_zeros, StructRow};
use crate::cap_difference::reason::DifferenceReason;
use crate::cap_frame::Segments;

/// The pointer word of a copy to a struct without words: its offset is -1.
const NO_WORDS: u64 = 0xffff_fffc;

/// A struct with its pointer word.
#[derive(Clone, Copy)]
pub(crate) struct OneStruct {
    pub(crate) pointer: u64,
    pub(crate) segment: u32,
    pub(crate) start: u32,
    pub(crate) data_words: u16,
    pub(crate) pointers: u16,
}

/// The first reason why the struct isn't as a copy has it from word `end` on.
#[inline(always)]
pub(crate) fn struct_reason<M: Segments>(
    message: &M,
    object: OneStruct,
    end: u64,
) -> Option<DifferenceReason> {
    if object.data_words == 0 && object.pointers == 0 {
        return empty_reason(object.pointer);
    }
    if u64::from(object.start) != end {
        return Some(DifferenceReason::Place);
    }
    let row = StructRow {
        segment: object.segment,
        first: object.start,
        count: 1,
        data_words: object.data_words,
        pointers: object.pointers,
    };
    if end_in_zeros(message, row) {
        return Some(DifferenceReason::DataZero);
    }
    if end_in_nulls(message, row) {
        return Some(DifferenceReason::PointerNull);
    }
    None
}

// The same of a struct without words, by its pointer word.
#[inline(always)]
fn empty_reason(pointer: u64) -> Option<DifferenceReason> {
    if pointer != NO_WORDS {
        return Some(DifferenceReason::EmptyStruct);
    }
    None
}
