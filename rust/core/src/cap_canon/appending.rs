// crates/cap_canon/src/appending.rt without its contracts, by tools/erase: that text is proved, this one is only tested.
//! The own words of what is left of an object, appended to a copy.

use crate::cap_canon::objects::{Object, Part};
use crate::cap_canon::output::CopyOutput;
use crate::cap_canon::words::{last_word, tag_word};
use crate::cap_frame::Segments;

/// Appends the own words of what is left of an object: its data words, values, tag and pointer
/// words, of which the last hold anything until their turn.
#[inline(always)]
pub(crate) fn append_own<M: Segments, T: CopyOutput>(message: &M, object: &Object, copy: &mut T) {
    match *object {
        Object::Null | Object::Cap { .. } => {}
        Object::Struct(part) => append_struct(message, &part, copy),
        Object::Scalars {
            segment,
            start,
            code,
            count,
            words,
        } => append_values(message, segment, start, code, count, words, copy),
        Object::Pointers {
            segment,
            start,
            count,
        } => copy.append_from(message, segment, start, count),
        Object::Structs { count, part } => append_tagged(message, &part, count, copy),
    }
}

// Appends the tag of a list of `count` structs, and what is left of each.
#[inline(never)]
fn append_tagged<M: Segments, T: CopyOutput>(message: &M, part: &Part, count: u32, copy: &mut T) {
    copy.push(tag_word(count, part.data_left, part.pointers_left));
    append_structs(message, part, count, copy);
}

// Appends what is left of one struct.
#[inline(always)]
fn append_struct<M: Segments, T: CopyOutput>(message: &M, part: &Part, copy: &mut T) {
    if part.data_left == part.data_words {
        let count = part.data_left + part.pointers_left;
        append_row(message, part.segment, part.start, count, copy);
        return;
    }
    let pointers = part.start + part.data_words;
    append_row(message, part.segment, part.start, part.data_left, copy);
    append_row(message, part.segment, pointers, part.pointers_left, copy);
}

// Appends words in a row. One or two words are pushed, since a call that copies rows takes longer.
#[inline(always)]
fn append_row<M: Segments, T: CopyOutput>(
    message: &M,
    segment: u32,
    start: u32,
    count: u32,
    copy: &mut T,
) {
    if count == 0 {
        return;
    }
    if count == 1 {
        copy.push(message.word(segment, start));
        return;
    }
    if count == 2 {
        append_two(message, segment, start, copy);
        return;
    }
    copy.append_from(message, segment, start, count);
}

// Appends two words in a row.
#[inline(always)]
fn append_two<M: Segments, T: CopyOutput>(message: &M, segment: u32, start: u32, copy: &mut T) {
    let first = message.word(segment, start);
    let second = message.word(segment, start + 1);
    copy.push(first);
    copy.push(second);
}

// Appends what is left of each of `count` structs in a row.
fn append_structs<M: Segments, T: CopyOutput>(message: &M, part: &Part, count: u32, copy: &mut T) {
    let left = part.data_left + part.pointers_left;
    if left == part.data_words + part.pointers {
        copy.append_from(message, part.segment, part.start, count * left);
        return;
    }
    let mut start = part.start;
    'elements: for _ in 0..count {
        append_struct(message, &Part { start, ..*part }, copy);
        start += part.data_words + part.pointers;
    }
}

// Appends the words of values, the last one without the bits after the last value.
#[inline(always)]
fn append_values<M: Segments, T: CopyOutput>(
    message: &M,
    segment: u32,
    start: u32,
    code: u8,
    count: u32,
    words: u32,
    copy: &mut T,
) {
    if words == 0 {
        return;
    }
    let before = words - 1;
    let last = message.word(segment, start + before);
    let kept = last_word(code, count, last);
    if kept == last {
        append_row(message, segment, start, words, copy);
        return;
    }
    append_row(message, segment, start, before, copy);
    copy.push(kept);
}
