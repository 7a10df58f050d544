// crates/cap_ptr/src/forms.rt without its contracts, by tools/erase: that text is proved, this one is only tested.
//! The fields and the six forms of a pointer word. The function for a field has the name of its
//! definition.

use crate::cap_words::{bits, signed_offset};

/// What the word is: 0 for a struct, 1 for a list, 2 for a far pointer, 3 for a capability
/// (encoding: Structs, Lists, Inter-Segment Pointers, Capabilities).
#[inline(always)]
pub fn kind(word: u64) -> u8 {
    bits(word, 0, 2) as u8
}

/// Bits 2 to 31, without a sign. In the tag of a list of structs they count the elements.
#[inline(always)]
pub fn middle(word: u64) -> u32 {
    bits(word, 2, 30) as u32
}

/// Of a struct or a tag: how many words the data section has.
#[inline(always)]
pub fn data_size(word: u64) -> u16 {
    bits(word, 32, 16) as u16
}

/// Of a struct or a tag: how many pointers the pointer section has.
#[inline(always)]
pub fn pointer_size(word: u64) -> u16 {
    bits(word, 48, 16) as u16
}

/// Of a list: what its elements are, from 0 to 7.
#[inline(always)]
pub fn code(word: u64) -> u8 {
    bits(word, 32, 3) as u8
}

/// Of a list: for code 7 the list's words without its tag, else its elements. Less than 2^29.
#[inline(always)]
pub fn list_size(word: u64) -> u32 {
    bits(word, 35, 29) as u32
}

/// Of a far pointer: 1 if its landing pad has two words, else 0.
#[inline(always)]
pub fn two(word: u64) -> u8 {
    bits(word, 2, 1) as u8
}

/// Of a far pointer: the first word of its landing pad, counted from 0. Less than 2^29.
#[inline(always)]
pub fn pad(word: u64) -> u32 {
    bits(word, 3, 29) as u32
}

/// Of a far pointer: the segment of its landing pad, counted from 0.
#[inline(always)]
pub fn far_segment(word: u64) -> u32 {
    bits(word, 32, 32) as u32
}

/// Of a capability: its place in the capability table. It has the bits of a far pointer's segment.
#[inline(always)]
pub fn cap_index(word: u64) -> u32 {
    far_segment(word)
}

/// A pointer word, by its form (encoding: Structs, Lists, Inter-Segment Pointers, Capabilities).
#[derive(Clone, Copy, Debug, PartialEq, Eq)]
pub enum Pointer {
    /// The word of all zeros.
    Null,
    /// A struct, which starts `offset` words after the pointer's end.
    Struct {
        /// In words, from -536870912 to 536870911.
        offset: i32,
        /// How many words its data section has.
        data_words: u16,
        /// How many pointers its pointer section has.
        pointers: u16,
    },
    /// A list, which starts `offset` words after the pointer's end.
    List {
        /// In words, from -536870912 to 536870911.
        offset: i32,
        /// What its elements are, from 0 to 7.
        code: u8,
        /// At most 536870911: for code 7 the list's words without its tag, else its elements.
        size: u32,
    },
    /// A landing pad, which lies `pad` words after the start of segment `segment`.
    Far {
        /// The pad has two words, not one.
        two: bool,
        /// In words, at most 536870911.
        pad: u32,
        /// Counted from 0.
        segment: u32,
    },
    /// A capability.
    Cap {
        /// Its place in the capability table.
        index: u32,
    },
    /// A word of a kind that has no meaning yet.
    Reserved {
        /// The whole word.
        word: u64,
    },
}

impl Pointer {
    /// The form of a word. Each word has exactly one, and `word` gives the word back.
    pub fn of(word: u64) -> Pointer {
        if word == 0 {
            return Pointer::Null;
        }
        match kind(word) {
            0 => Pointer::Struct {
                offset: signed_offset(word) as i32,
                data_words: data_size(word),
                pointers: pointer_size(word),
            },
            1 => Pointer::List {
                offset: signed_offset(word) as i32,
                code: code(word),
                size: list_size(word),
            },
            2 => Pointer::Far {
                two: two(word) == 1,
                pad: pad(word),
                segment: far_segment(word),
            },
            _ => {
                if middle(word) == 0 {
                    Pointer::Cap {
                        index: cap_index(word),
                    }
                } else {
                    Pointer::Reserved { word }
                }
            }
        }
    }

    /// The word of this form. The caller makes sure that the fields are in the ranges given for
    /// them. A struct may not be all zeros, which is the form of null. A reserved word has to be
    /// one.
    #[inline(always)]
    pub fn word(&self) -> u64 {
        match *self {
            Pointer::Null => 0,
            Pointer::Struct {
                offset,
                data_words,
                pointers,
            } => offset_field(offset) + (u64::from(data_words) << 32) + (u64::from(pointers) << 48),
            Pointer::List { offset, code, size } => {
                1 + offset_field(offset) + (u64::from(code) << 32) + (u64::from(size) << 35)
            }
            Pointer::Far { two, pad, segment } => {
                2 + (u64::from(two) << 2) + (u64::from(pad) << 3) + (u64::from(segment) << 32)
            }
            Pointer::Cap { index } => 3 + (u64::from(index) << 32),
            Pointer::Reserved { word } => word,
        }
    }
}

// The 30 bits of an offset, in their place.
#[inline(always)]
fn offset_field(offset: i32) -> u64 {
    let bits = if offset < 0 {
        offset + (1 << 30)
    } else {
        offset
    };
    (bits as u64) << 2
}
