// crates/cap_difference/src/objects.rt without its contracts, by tools/erase: that text is proved, this one is only tested.
//! Why an object isn't as a canonical copy has it.

use crate::cap_difference::lists::{
    pointers_reason, structs_reason, values_reason, StructList, Values,
};
use crate::cap_difference::reason::DifferenceReason;
use crate::cap_difference::structs::{struct_reason, OneStruct};
use crate::cap_frame::Segments;
use crate::cap_ptr::{Shape, Target};

/// The first reason why the object of a pointer word isn't as a copy has it from word `end` on.
#[inline(always)]
pub(crate) fn object_reason<M: Segments>(
    message: &M,
    pointer: u64,
    target: Target,
    end: u64,
) -> Option<DifferenceReason> {
    match target.shape {
        Shape::Struct {
            data_words,
            pointers,
        } => struct_reason(
            message,
            OneStruct {
                pointer,
                segment: target.segment,
                start: target.start,
                data_words,
                pointers,
            },
            end,
        ),
        Shape::Scalars { code, count } => values_reason(
            message,
            Values {
                segment: target.segment,
                start: target.start,
                words: target.words,
                code,
                count,
            },
            end,
        ),
        Shape::Pointers { .. } => pointers_reason(target.start, end),
        Shape::Structs {
            words,
            count,
            data_words,
            pointers,
        } => structs_reason(
            message,
            StructList {
                segment: target.segment,
                start: target.start,
                words,
                count,
                data_words,
                pointers,
            },
            end,
        ),
    }
}
