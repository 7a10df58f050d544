// crates/cap_calls/src/node.rt without its contracts, by tools/erase: that text is proved, this one is only tested.
//! A node that a call reports.

use crate::cap_frame::Segments;
use crate::cap_ptr::element_bits;
use crate::cap_vet::{Kind, View};

/// A node, laid out as C has it. A field that doesn't apply to its kind is 0.
#[repr(C)]
#[derive(Clone, Copy, Debug, PartialEq, Eq)]
pub struct CallNode {
    /// 0: null. 1: a struct. 2: a list of values. 3: a list of pointers. 4: a list of structs. 5: a
    /// capability.
    pub kind: u32,
    /// Of a list: the code of its elements, 0 to 7 (encoding: Lists).
    pub element: u32,
    /// Of a list: how many elements it has.
    pub count: u32,
    /// Of a struct: its data words. Of a list of structs: those of each element.
    pub data_words: u32,
    /// Of a struct: its pointers. Of a list of structs: those of each element.
    pub pointers: u32,
    /// Of a capability: its index.
    pub capability: u32,
    /// How many bytes of the input come before its own, those of the table included.
    pub offset: u64,
    /// How many bytes its own are. A struct has its data words, a list of values the values. A list
    /// of structs has the elements, each with its data words and then its pointers.
    pub length: u64,
    /// They are 0.
    pub reserved: [u64; 2],
}

// How many bytes of a frame come before a word, by its segments and the words before it.
#[inline(always)]
pub(crate) fn bytes_before(segments: u32, words: u64) -> u64 {
    8 * (u64::from(segments) / 2 + 1 + words)
}

impl CallNode {
    // With nothing in it, as of null.
    pub(crate) fn none() -> CallNode {
        CallNode {
            kind: 0,
            element: 0,
            count: 0,
            data_words: 0,
            pointers: 0,
            capability: 0,
            offset: 0,
            length: 0,
            reserved: [0; 2],
        }
    }

    // What a view shows, in a frame of a message of this number of segments.
    #[inline(always)]
    pub(crate) fn of<M: Segments>(view: &View<'_, M>, segments: u32) -> CallNode {
        CallNode::of_kind(view.kind(), bytes_before(segments, view.words_before()))
    }

    // What a view shows, where this many bytes of the frame come before the segment of its words.
    #[inline(always)]
    pub(crate) fn in_segment<M: Segments>(view: &View<'_, M>, before: u64) -> CallNode {
        CallNode::of_kind(view.kind(), before + 8 * u64::from(view.start()))
    }

    // Of this kind, with this many bytes before the words of its object.
    #[inline(always)]
    fn of_kind(kind: Kind, before: u64) -> CallNode {
        match kind {
            Kind::Null => CallNode::none(),
            Kind::Cap { index } => CallNode {
                kind: 5,
                capability: index,
                ..CallNode::none()
            },
            Kind::Struct {
                data_words,
                pointers,
            } => CallNode::of_struct(data_words, pointers, before),
            Kind::Scalars { code, count } => CallNode::of_values(code, count, before),
            Kind::Pointers { count } => CallNode {
                kind: 3,
                element: 6,
                count,
                offset: before,
                ..CallNode::none()
            },
            Kind::Structs {
                count,
                data_words,
                pointers,
            } => CallNode::of_structs(count, data_words, pointers, before),
        }
    }

    // Of a struct. Its pointers come after its data words.
    #[inline(always)]
    fn of_struct(data_words: u16, pointers: u16, before: u64) -> CallNode {
        CallNode {
            kind: 1,
            data_words: u32::from(data_words),
            pointers: u32::from(pointers),
            offset: before,
            length: 8 * u64::from(data_words),
            ..CallNode::none()
        }
    }

    // Of a list of values. The bits past the last of them don't count.
    #[inline(always)]
    fn of_values(code: u8, count: u32, before: u64) -> CallNode {
        CallNode {
            kind: 2,
            element: u32::from(code),
            count,
            offset: before,
            length: (u64::from(element_bits(code)) * u64::from(count) + 7) / 8,
            ..CallNode::none()
        }
    }

    // Of a list of structs. Its tag comes before its elements.
    #[inline(always)]
    fn of_structs(count: u32, data_words: u16, pointers: u16, before: u64) -> CallNode {
        CallNode {
            kind: 4,
            element: 7,
            count,
            data_words: u32::from(data_words),
            pointers: u32::from(pointers),
            offset: before + 8,
            length: 8 * (u64::from(count) * (u64::from(data_words) + u64::from(pointers))),
            ..CallNode::none()
        }
    }
}
