// crates/cap_difference/src/lists.rt without its contracts, by tools/erase: that text is proved, this one is only tested.
//! Why a list isn't as a canonical copy has it.

use crate::cap_difference::elements::{end_in_nulls, end_in_zeros, StructRow};
use crate::cap_difference::reason::DifferenceReason;
use crate::cap_frame::Segments;
use crate::cap_ptr::element_bits;

/// A list of values.
#[derive(Clone, Copy)]
pub(crate) struct Values {
    pub(crate) segment: u32,
    pub(crate) start: u32,
    pub(crate) words: u32,
    pub(crate) code: u8,
    pub(crate) count: u32,
}

/// The first reason why a list of values isn't as a copy has it from word `end` on.
#[inline(always)]
pub(crate) fn values_reason<M: Segments>(
    message: &M,
    list: Values,
    end: u64,
) -> Option<DifferenceReason> {
    if u64::from(list.start) != end {
        return Some(DifferenceReason::Place);
    }
    if has_bits_after(message, list) {
        return Some(DifferenceReason::Bits);
    }
    None
}

// Whether bits are set after the last value, in its word.
#[inline(always)]
fn has_bits_after<M: Segments>(message: &M, list: Values) -> bool {
    let bits = u64::from(element_bits(list.code)) * u64::from(list.count) % 64;
    if bits == 0 {
        return false;
    }
    let last = message.word(list.segment, list.start + (list.words - 1));
    last >> bits != 0
}

/// The same of a list of pointers.
#[inline(always)]
pub(crate) fn pointers_reason(start: u32, end: u64) -> Option<DifferenceReason> {
    if u64::from(start) != end {
        return Some(DifferenceReason::Place);
    }
    None
}

/// A list of structs: its tag is at word `start`, and the list has `words` words after it.
#[derive(Clone, Copy)]
pub(crate) struct StructList {
    pub(crate) segment: u32,
    pub(crate) start: u32,
    pub(crate) words: u32,
    pub(crate) count: u32,
    pub(crate) data_words: u16,
    pub(crate) pointers: u16,
}

/// The same of a list of structs.
#[inline(always)]
pub(crate) fn structs_reason<M: Segments>(
    message: &M,
    list: StructList,
    end: u64,
) -> Option<DifferenceReason> {
    if u64::from(list.start) != end {
        return Some(DifferenceReason::Place);
    }
    let each = u32::from(list.data_words) + u32::from(list.pointers);
    if list.count == 0 && each != 0 {
        return Some(DifferenceReason::EmptyList);
    }
    if list.count * each != list.words {
        return Some(DifferenceReason::Surplus);
    }
    if list.count == 0 {
        return None;
    }
    let row = StructRow {
        segment: list.segment,
        first: list.start + 1,
        count: list.count,
        data_words: list.data_words,
        pointers: list.pointers,
    };
    if end_in_zeros(message, row) {
        return Some(DifferenceReason::DataZero);
    }
    if end_in_nulls(message, row) {
        return Some(DifferenceReason::PointerNull);
    }
    None
}
