// crates/cap_canon/src/in_order_lists.rt without its contracts, by tools/erase: that text is proved, this one is only tested.
//! Comparing a list of structs with a canonical copy while its message is vetted.

use crate::cap_canon::wholeness::list_needs_all;
use crate::cap_frame::Segments;
use crate::cap_ptr::{data_size, list_size, middle, pointer_size, words_of_elements};

/// Where a copy has the next object, if it has pointer word `w` of segment 0 and its object's own
/// words as they are here, these from `end` on. The word is that of a list of structs, and leads to
/// `end`. So the word and the list's tag describe the list. Words are read of segment `s`, which is
/// 0, as the walk reads them: so the compiler reads each once.
#[inline(always)]
pub(crate) fn structs_end<M: Segments>(
    message: &M,
    s: u32,
    w: u32,
    word: u64,
    end: u32,
) -> Option<u32> {
    let tag = message.word(s, end);
    let size = list_size(word);
    if words_of_elements(tag) != u64::from(size) {
        return None;
    }
    let (data_words, pointers) = (u32::from(data_size(tag)), u32::from(pointer_size(tag)));
    if !list_needs_all(message, s, end + 1, middle(tag), data_words, pointers) {
        return None;
    }
    Some(end + 1 + size)
}
