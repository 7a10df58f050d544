// crates/cap_canon/src/words.rt without its contracts, by tools/erase: that text is proved, this one is only tested.
//! The words of a canonical copy that aren't the message's: pointer words, tags, and the last word
//! of a list of values.

use crate::cap_canon::objects::Object;
use crate::cap_ptr::{element_bits, Pointer};
use crate::cap_words::bits;

/// The word that leads from a pointer word to what is left of an object, which starts `offset`
/// words after it (encoding: Structs, Lists, Capabilities). The caller makes sure that the offset
/// fits its 30 bits, one of which is the sign.
#[inline(always)]
pub(crate) fn pointer_word(offset: u32, object: &Object) -> u64 {
    match *object {
        Object::Null => 0,
        Object::Cap { index } => cap_pointer(index),
        Object::Struct(part) => struct_pointer(offset, part.data_left, part.pointers_left),
        Object::Scalars { code, count, .. } => list_pointer(offset, code, count),
        Object::Pointers { count, .. } => list_pointer(offset, 6, count),
        Object::Structs { count, part } => {
            list_pointer(offset, 7, count * (part.data_left + part.pointers_left))
        }
    }
}

/// The pointer to a struct. That to one without words has the offset -1.
#[inline(always)]
pub(crate) fn struct_pointer(offset: u32, data_words: u32, pointers: u32) -> u64 {
    if data_words + pointers == 0 {
        let empty = Pointer::Struct {
            offset: -1,
            data_words: 0,
            pointers: 0,
        };
        return empty.word();
    }
    let pointer = Pointer::Struct {
        offset: offset as i32,
        data_words: data_words as u16,
        pointers: pointers as u16,
    };
    pointer.word()
}

/// The tag of a list of `count` structs (encoding: Lists): a struct pointer with their number in
/// place of its offset.
pub(crate) fn tag_word(count: u32, data_words: u32, pointers: u32) -> u64 {
    (u64::from(count) << 2) + (u64::from(data_words) << 32) + (u64::from(pointers) << 48)
}

/// The pointer to a list.
#[inline(always)]
pub(crate) fn list_pointer(offset: u32, code: u8, size: u32) -> u64 {
    let pointer = Pointer::List {
        offset: offset as i32,
        code,
        size,
    };
    pointer.word()
}

// The pointer to a capability.
#[inline(always)]
fn cap_pointer(index: u32) -> u64 {
    let pointer = Pointer::Cap { index };
    pointer.word()
}

/// The last word of a list of values, without the bits after the last value.
pub(crate) fn last_word(code: u8, count: u32, word: u64) -> u64 {
    let used = rest_bits(code, count);
    if used == 0 {
        return word;
    }
    bits(word, 0, used)
}

/// How many bits of the last word of a list of values its values take, or 0 if they take all of them
/// or the list has no words.
#[inline(always)]
pub(crate) fn rest_bits(code: u8, count: u32) -> u32 {
    (u64::from(element_bits(code)) * u64::from(count) % 64) as u32
}
