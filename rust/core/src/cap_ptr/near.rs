// crates/cap_ptr/src/near.rt without its contracts, by tools/erase: that text is proved, this one is only tested.
//! Objects that their pointer word describes, alone or with the tag of a list of structs.

use crate::cap_frame::Segments;
use crate::cap_ptr::forms::{code, data_size, kind, list_size, middle, pointer_size};
use crate::cap_ptr::shapes::{is_structs, plain_shape, start_of, Shape, Target};
use crate::cap_spec::Reason;

/// The words of an object that its pointer word alone describes. Its pointers, if it has any, are
/// its last words.
#[derive(Clone, Copy, Debug, PartialEq, Eq)]
pub struct Row {
    /// How many words it takes: at most 2^29. It is charged just these.
    pub words: u32,
    /// Its first word, counted from 0.
    pub start: u32,
    /// Its first pointer, counted from 0, if it has any.
    pub pointers_start: u32,
    /// How many pointers it has, of one word each.
    pub pointer_count: u32,
}

/// The object that a pointer word leads to, if the word alone gives it: a struct, or a list without
/// a tag whose elements have bits (encoding: Structs, Lists). The word is word `at` of segment
/// `segment`, and that segment has `len` words. `follow` returns that object too. After `None` the
/// word leads to no such object, and `follow` says what it leads to.
#[inline(always)]
pub fn near_target(word: u64, segment: u32, at: u32, len: u32) -> Option<Target> {
    let row = near_row(word, at, len)?;
    Some(Target {
        segment,
        start: row.start,
        words: row.words,
        pads: 0,
        charge: u64::from(row.words),
        shape: plain_shape(word),
    })
}

/// The words of the same object.
// A walk takes this: it needs no shape, and what it needs stays in registers.
#[inline(always)]
pub fn near_row(word: u64, at: u32, len: u32) -> Option<Row> {
    if word == 0 {
        return None;
    }
    let (own, pointer_count) = parts_of(word)?;
    let start = start_of(at, word)?;
    let pointers_start = start + own;
    if pointers_start + pointer_count > u64::from(len) {
        return None;
    }
    Some(Row {
        words: (own + pointer_count) as u32,
        start: start as u32,
        pointers_start: pointers_start as u32,
        pointer_count: pointer_count as u32,
    })
}

/// Where the tag of a list of structs is, if a word describes such a list with all its words in a
/// segment (encoding: Lists). The word is word `at` of that segment, which has `len` words. With the
/// tag [`structs_target`](crate::structs_target) gives the list.
#[inline(always)]
pub fn tag_at(word: u64, at: u32, len: u32) -> Option<u32> {
    if !is_structs(word) {
        return None;
    }
    let start = start_of(at, word)?;
    if start + 1 + u64::from(list_size(word)) > u64::from(len) {
        return None;
    }
    Some(start as u32)
}

// How many words an object that a word alone describes has before its pointers, and how many
// pointers.
#[inline(always)]
fn parts_of(word: u64) -> Option<(u64, u64)> {
    match kind(word) {
        0 => Some((u64::from(data_size(word)), u64::from(pointer_size(word)))),
        1 => list_parts(code(word), u64::from(list_size(word))),
        _ => None,
    }
}

// The same of a list, by its code and its size.
#[inline(always)]
fn list_parts(code: u8, size: u64) -> Option<(u64, u64)> {
    // Bytes come first: most lists are texts or data.
    if code == 2 {
        return Some(((size + 7) / 8, 0));
    }
    let bits = match code {
        1 => 1,
        3 => 16,
        4 => 32,
        5 => 64,
        6 => return Some((0, size)),
        _ => return None,
    };
    Some(((bits * size + 63) / 64, 0))
}

/// The list of structs that a pointer word describes with this tag, where the list starts at this
/// place, over some pads (encoding: Lists). Its words have to lie inside their segment, the tag at
/// the start: [`tag_at`](crate::tag_at) says so of a word without pads.
///
/// # Errors
///
/// - [`Reason::CompositeTag`]: the tag isn't laid out as a struct pointer.
/// - [`Reason::CompositeOverrun`]: the elements take more words than the list has.
// It is inlined, so that in a walk's loop the result stays in registers.
#[inline(always)]
pub fn structs_target(
    word: u64,
    tag: u64,
    segment: u32,
    start: u32,
    pads: u8,
) -> Result<Target, Reason> {
    let words = list_size(word);
    if kind(tag) != 0 {
        return Err(Reason::CompositeTag);
    }
    if words_of_elements(tag) > u64::from(words) {
        return Err(Reason::CompositeOverrun);
    }
    Ok(Target {
        segment,
        start,
        words: 1 + words,
        pads,
        charge: u64::from(pads) + 1 + u64::from(words) + u64::from(empty_structs(tag)),
        shape: Shape::Structs {
            words,
            count: middle(tag),
            data_words: data_size(tag),
            pointers: pointer_size(tag),
        },
    })
}

/// The list of structs that this word and the list's tag describe (encoding: Lists). The word is the
/// pointer word or, after a landing pad, the word that gives its sizes. It is at this place. `pads` is
/// the number of words of the landing pad. `None` if the word or the tag describes none: [`crate::follow`] then says where the pointer leads.
#[inline(always)]
pub fn struct_list<M: Segments>(
    message: &M,
    pads: u8,
    segment: u32,
    at: u32,
    word: u64,
) -> Option<Target> {
    let start = tag_at(word, at, message.len(segment))?;
    match structs_target(word, message.word(segment, start), segment, start, pads) {
        Ok(list) => Some(list),
        Err(_) => None,
    }
}

/// How many words the elements take that a tag gives (encoding: Lists).
#[inline(always)]
pub fn words_of_elements(tag: u64) -> u64 {
    let each = u64::from(data_size(tag)) + u64::from(pointer_size(tag));
    u64::from(middle(tag)) * each
}

// How many elements a tag gives that have no words.
#[inline(always)]
fn empty_structs(tag: u64) -> u32 {
    if data_size(tag) == 0 && pointer_size(tag) == 0 {
        middle(tag)
    } else {
        0
    }
}
