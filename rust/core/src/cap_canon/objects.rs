// crates/cap_canon/src/objects.rt without its contracts, by tools/erase: that text is proved, this one is only tested.
//! What a pointer word of an accepted message leads to, trimmed.

use crate::cap_canon::trimming::{data_left, list_data_left, list_pointers_left, pointers_left};
use crate::cap_frame::Segments;
use crate::cap_ptr::{follow, near_target, Followed, Shape, Target};

/// A struct, or the structs of a list: the segment and the word where the first starts, the sizes
/// of each in the message, and those that are left when it is trimmed.
#[derive(Clone, Copy)]
pub(crate) struct Part {
    pub(crate) segment: u32,
    pub(crate) start: u32,
    pub(crate) data_words: u32,
    pub(crate) pointers: u32,
    pub(crate) data_left: u32,
    pub(crate) pointers_left: u32,
}

/// What is left of an object when it is trimmed, and where it is.
#[derive(Clone, Copy)]
pub(crate) enum Object {
    /// Nothing.
    Null,
    /// A capability, by its index.
    Cap { index: u32 },
    /// A struct.
    Struct(Part),
    /// A list of values that aren't pointers: the code of their size, how many, and in how many
    /// words.
    Scalars {
        segment: u32,
        start: u32,
        code: u8,
        count: u32,
        words: u32,
    },
    /// A list of pointers.
    Pointers {
        segment: u32,
        start: u32,
        count: u32,
    },
    /// A list of structs, whose tag is before the first of them.
    Structs { count: u32, part: Part },
}

/// Whether the pointer word at a place is zero, and so leads to nothing. Asks that it denotes a tree.
#[inline(always)]
pub(crate) fn leads_to_null<M: Segments>(message: &M, s: u32, w: u32) -> bool {
    message.word(s, w) == 0
}

/// What the pointer word at a place denotes, trimmed. Asks that it denotes a tree.
// Most words describe it alone, and what they lead to then stays in registers.
#[inline(always)]
pub(crate) fn object_at<M: Segments>(message: &M, s: u32, w: u32) -> Object {
    let word = message.word(s, w);
    if word == 0 {
        return Object::Null;
    }
    match near_target(word, s, w, message.len(s)) {
        Some(target) => left_of(message, &target),
        None => followed_at(message, s, w),
    }
}

// The same of a word that has to be followed.
#[inline(never)]
fn followed_at<M: Segments>(message: &M, s: u32, w: u32) -> Object {
    match follow(message, s, w) {
        Err(_) => unreachable!(),
        Ok(Followed::Null { .. }) => Object::Null,
        Ok(Followed::Cap { index, .. }) => Object::Cap { index },
        Ok(Followed::Target(target)) => left_of(message, &target),
    }
}

// What is left of an object.
#[inline(always)]
fn left_of<M: Segments>(message: &M, target: &Target) -> Object {
    let segment = target.segment;
    let start = target.start;
    match target.shape {
        Shape::Struct {
            data_words,
            pointers,
        } => struct_left(
            message,
            segment,
            start,
            u32::from(data_words),
            u32::from(pointers),
        ),
        Shape::Scalars { code, count } => Object::Scalars {
            segment,
            start,
            code,
            count,
            words: target.words,
        },
        Shape::Pointers { count } => Object::Pointers {
            segment,
            start,
            count,
        },
        Shape::Structs {
            count,
            data_words,
            pointers,
            ..
        } => structs_left(
            message,
            segment,
            start,
            count,
            u32::from(data_words),
            u32::from(pointers),
        ),
    }
}

// What is left of a struct of these sizes.
#[inline(always)]
fn struct_left<M: Segments>(
    message: &M,
    segment: u32,
    start: u32,
    data_words: u32,
    pointers: u32,
) -> Object {
    let data_left = data_left(message, segment, start, data_words, 0);
    let pointers_left = pointers_left(message, segment, start + data_words, pointers, 0);
    Object::Struct(Part {
        segment,
        start,
        data_words,
        pointers,
        data_left,
        pointers_left,
    })
}

// What is left of a list of `count` structs of these sizes, whose tag is at the start.
fn structs_left<M: Segments>(
    message: &M,
    segment: u32,
    start: u32,
    count: u32,
    data_words: u32,
    pointers: u32,
) -> Object {
    let first = start + 1;
    let data_left = list_data_left(message, segment, first, count, data_words, pointers);
    let pointers_left = list_pointers_left(message, segment, first, count, data_words, pointers);
    let part = Part {
        segment,
        start: first,
        data_words,
        pointers,
        data_left,
        pointers_left,
    };
    Object::Structs { count, part }
}
