// crates/cap_canon/src/wholeness.rt without its contracts, by tools/erase: that text is proved, this one is only tested.
//! Whether an object needs all its words when it is trimmed, where its pointers needn't be followed.

use crate::cap_frame::Segments;
use crate::cap_ptr::kind;

/// Whether a struct needs all of these data words and pointers, and its last pointer isn't far. Its
/// first word is `start`, in segment `s`.
#[inline(always)]
pub(crate) fn needs_all<M: Segments>(
    message: &M,
    s: u32,
    start: u32,
    data_words: u32,
    pointers: u32,
) -> bool {
    if !needs_data(message, s, start, data_words) {
        return false;
    }
    needs_row(message, s, start + data_words, pointers)
}

// Whether it needs all these data words: it has none, or the last isn't zero.
#[inline(always)]
fn needs_data<M: Segments>(message: &M, s: u32, start: u32, data_words: u32) -> bool {
    if data_words == 0 {
        return true;
    }
    if message.word(s, start + (data_words - 1)) == 0 {
        return false;
    }
    true
}

// Whether it needs all these pointers, and the last isn't far.
#[inline(always)]
fn needs_row<M: Segments>(message: &M, s: u32, start: u32, pointers: u32) -> bool {
    if pointers == 0 {
        return true;
    }
    is_needed(message.word(s, start + (pointers - 1)))
}

// Whether a last pointer word is one of a copy: not if it is zero, and not if it is far.
#[inline(always)]
fn is_needed(word: u64) -> bool {
    word != 0 && kind(word) != 2
}

/// Whether the structs of a list need these data words and pointers, so that a copy has as many of
/// each, and the first last pointer that isn't zero isn't far. Their first word is `start`, in
/// segment `s`.
#[inline(always)]
pub(crate) fn list_needs_all<M: Segments>(
    message: &M,
    s: u32,
    start: u32,
    count: u32,
    data_words: u32,
    pointers: u32,
) -> bool {
    if !list_needs_data(message, s, start, count, data_words, pointers) {
        return false;
    }
    list_needs_pointers(message, s, start, count, data_words, pointers)
}

// Whether one of them needs all data words: it has none, or its last isn't zero.
#[inline(always)]
fn list_needs_data<M: Segments>(
    message: &M,
    s: u32,
    start: u32,
    count: u32,
    data_words: u32,
    pointers: u32,
) -> bool {
    if data_words == 0 {
        return true;
    }
    if first_set(
        message,
        s,
        start + (data_words - 1),
        data_words + pointers,
        count,
    ) == 0
    {
        return false;
    }
    true
}

// Whether one of them needs all pointers, and the last pointer of the first such isn't far.
#[inline(always)]
fn list_needs_pointers<M: Segments>(
    message: &M,
    s: u32,
    start: u32,
    count: u32,
    data_words: u32,
    pointers: u32,
) -> bool {
    if pointers == 0 {
        return true;
    }
    let last = data_words + (pointers - 1);
    is_needed(first_set(
        message,
        s,
        start + last,
        data_words + pointers,
        count,
    ))
}

// The first of `count` words of segment `s` that isn't zero, or 0 if each is. They are word `at`
// and those that come `each` words after one another.
#[inline(always)]
fn first_set<M: Segments>(message: &M, s: u32, at: u32, each: u32, count: u32) -> u64 {
    let mut place = at;
    'elements: for _ in 0..count {
        let word = message.word(s, place);
        if word != 0 {
            return word;
        }
        place += each;
    }
    0
}
