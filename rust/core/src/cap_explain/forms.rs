// crates/cap_explain/src/forms.rt without its contracts, by tools/erase: that text is proved, this one is only tested.
//! The texts of pointer words, by their forms and fields.

use crate::cap_buffer::DIGITS;
use crate::cap_explain::explanation::{Explanation, CAPACITY};
use crate::cap_ptr::{
    cap_index, code, data_size, far_segment, kind, list_size, middle, pad, pointer_size, two,
};

/// The space for the text of a pointer word.
pub(crate) const FORM: usize = 120;

/// The space for the text of the first word of a list of structs.
pub(crate) const TAG: usize = FORM + 18;

/// The space for the offset of a pointer word.
const OFFSET: usize = 30;

/// The space for the sizes of a struct.
const SIZES: usize = 64;

/// The most bytes of what the elements of a list are called.
const NAME: usize = 22;

/// What the 30 bits of an offset, read without a sign, are too large by.
pub(crate) fn excess(bits: u32) -> u32 {
    if bits < 1 << 29 {
        0
    } else {
        1 << 30
    }
}

/// Appends the difference of two numbers, with its sign.
pub(crate) fn push_difference(text: &mut Explanation, a: u64, b: u64) {
    if a < b {
        text.push_text(b"-");
        text.push_number(b - a);
    } else {
        text.push_number(a - b);
    }
}

/// Appends the offset of a struct or list pointer.
fn push_offset(text: &mut Explanation, word: u64) {
    text.push_text(b", offset ");
    let bits = middle(word);
    push_difference(text, bits as u64, excess(bits) as u64);
}

/// Appends the sizes of a struct.
fn push_sizes(text: &mut Explanation, word: u64) {
    text.push_named(b", data words ", data_size(word) as u64);
    text.push_named(b", pointers ", pointer_size(word) as u64);
}

/// What a list of this code is called.
fn elements_name(code: u8) -> &'static [u8] {
    match code {
        0 => b"list of empty elements",
        1 => b"list of bits",
        2 => b"list of bytes",
        3 => b"list of 2 bytes each",
        4 => b"list of 4 bytes each",
        5 => b"list of 8 bytes each",
        6 => b"list of pointers",
        _ => b"list of structs",
    }
}

/// What the size of a list of this code counts.
fn size_name(code: u8) -> &'static [u8] {
    if code == 7 {
        b", words "
    } else {
        b", elements "
    }
}

/// Appends the fields of a list pointer.
fn push_list(text: &mut Explanation, word: u64) {
    let code = code(word);
    text.push_text(elements_name(code));
    push_offset(text, word);
    text.push_named(size_name(code), list_size(word) as u64);
}

/// Appends the fields of a far pointer.
fn push_far(text: &mut Explanation, word: u64) {
    text.push_text(b"far pointer to ");
    text.push_place(far_segment(word), pad(word) as u64);
    text.push_named(b", pad words ", two(word) as u64 + 1);
}

/// Appends the fields of a word of kind 3.
fn push_other(text: &mut Explanation, word: u64) {
    if middle(word) == 0 {
        text.push_named(b"capability, index ", cap_index(word) as u64);
    } else {
        text.push_text(b"reserved");
    }
}

/// Appends the fields of a struct pointer.
fn push_struct(text: &mut Explanation, word: u64) {
    text.push_text(b"struct");
    push_offset(text, word);
    push_sizes(text, word);
}

/// Appends the form of a pointer word and its fields.
pub(crate) fn push_form(text: &mut Explanation, word: u64) {
    if word == 0 {
        text.push_text(b"null");
        return;
    }
    match kind(word) {
        0 => push_struct(text, word),
        1 => push_list(text, word),
        2 => push_far(text, word),
        _ => push_other(text, word),
    }
}

/// Appends the fields of the first word of a list of structs, which should be a tag.
pub(crate) fn push_tag(text: &mut Explanation, word: u64) {
    if kind(word) == 0 {
        text.push_named(b"struct, elements ", middle(word) as u64);
        push_sizes(text, word);
    } else {
        text.push_text(b"not a struct tag: ");
        push_form(text, word);
    }
}
