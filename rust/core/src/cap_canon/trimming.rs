// crates/cap_canon/src/trimming.rt without its contracts, by tools/erase: that text is proved, this one is only tested.
//! How much of an object is left when it is trimmed.

use crate::cap_frame::Segments;
use crate::cap_ptr::{follow, kind, Followed};

/// How many of the `count` data words from `start` on are left when the zeros at the end are cut,
/// but no fewer than `least`.
#[inline(always)]
pub(crate) fn data_left<M: Segments>(
    message: &M,
    segment: u32,
    start: u32,
    count: u32,
    least: u32,
) -> u32 {
    let mut left = count;
    while left > least {
        if message.word(segment, start + (left - 1)) != 0 {
            return left;
        }
        left -= 1;
    }
    left
}

/// How many data words no struct of a list can do without.
pub(crate) fn list_data_left<M: Segments>(
    message: &M,
    segment: u32,
    start: u32,
    count: u32,
    data_words: u32,
    pointers: u32,
) -> u32 {
    let mut most = 0;
    let mut at = start;
    'elements: for _ in 0..count {
        if most == data_words {
            return most;
        }
        most = data_left(message, segment, at, data_words, most);
        at += data_words + pointers;
    }
    most
}

/// Whether a pointer word denotes null: it is zero, or leads through a landing pad to a zero word.
#[inline(always)]
pub(crate) fn is_null_at<M: Segments>(message: &M, s: u32, w: u32) -> bool {
    let word = message.word(s, w);
    if kind(word) != 2 {
        return word == 0;
    }
    match follow(message, s, w) {
        Err(_) => unreachable!(),
        Ok(Followed::Null { .. }) => true,
        Ok(Followed::Cap { .. }) => false,
        Ok(Followed::Target(_)) => false,
    }
}

/// How many of the `count` pointers from `start` on are left when the nulls at the end are cut, but
/// no fewer than `least`.
#[inline(always)]
pub(crate) fn pointers_left<M: Segments>(
    message: &M,
    segment: u32,
    start: u32,
    count: u32,
    least: u32,
) -> u32 {
    let mut left = count;
    while left > least {
        if !is_null_at(message, segment, start + (left - 1)) {
            return left;
        }
        left -= 1;
    }
    left
}

/// How many pointers no struct of a list can do without.
pub(crate) fn list_pointers_left<M: Segments>(
    message: &M,
    segment: u32,
    start: u32,
    count: u32,
    data_words: u32,
    pointers: u32,
) -> u32 {
    let mut most = 0;
    let mut at = start;
    'elements: for _ in 0..count {
        if most == pointers {
            return most;
        }
        most = pointers_left(message, segment, at + data_words, pointers, most);
        at += data_words + pointers;
    }
    most
}
