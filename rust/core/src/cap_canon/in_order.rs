// crates/cap_canon/src/in_order.rt without its contracts, by tools/erase: that text is proved, this one is only tested.
//! Comparing a message with its canonical copy while it is vetted.

use crate::cap_canon::in_order_lists::structs_end;
use crate::cap_canon::values::ends_with_values;
use crate::cap_canon::wholeness::needs_all;
use crate::cap_frame::Segments;
use crate::cap_ptr::{code, data_size, kind, list_size, middle, pointer_size};
use crate::cap_vet::{FirstTurn, Place, Turn};

/// The most words of a canonical message that is accepted: those of the greatest word limit, and
/// its root word.
const LONGEST_COPY: u32 = 268435457;

/// How many pointers more than words a message has to have to be taken for an amplified one.
const SLACK: u64 = 4096;

/// The pointer word of a struct without words.
const NO_WORDS: u64 = 0xffff_fffc;

/// Why a walk stops that compares a message with its copy: the message isn't canonical.
#[derive(Clone, Copy)]
pub(crate) struct NotCanonical;

/// A walk through a message of one segment that compares each object with the one that a copy has.
/// After one that no copy has as it is, the walk stops or goes on without comparing.
pub(crate) struct InOrder {
    // Where a copy has the next object, or 0 after a difference.
    pub(crate) end: u32,
    // A message with more pointers is taken for an amplified one.
    pub(crate) most: u64,
}

impl Turn for InOrder {
    type Stop = NotCanonical;

    #[inline(always)]
    fn after<M: Segments>(
        &mut self,
        message: &M,
        s: u32,
        w: u32,
        _object: Place,
        may_be_lax: bool,
        pointers: u64,
        cost: u64,
    ) -> Result<(), NotCanonical> {
        match next_end(message, s, w, cost, self.end) {
            Some(end) => {
                self.end = end;
                Ok(())
            }
            None => {
                if !goes_on(message, s, w, may_be_lax, pointers > self.most, self.end) {
                    return Err(NotCanonical);
                }
                self.end = 0;
                Ok(())
            }
        }
    }
}

impl FirstTurn for InOrder {
    #[inline(always)]
    fn begin<M: Segments>(message: &M) -> Result<InOrder, NotCanonical> {
        if message.count() != 1 {
            return Err(NotCanonical);
        }
        let words = message.len(0);
        if words == 0 {
            return Err(NotCanonical);
        }
        if words > LONGEST_COPY {
            return Err(NotCanonical);
        }
        Ok(InOrder {
            end: 1,
            most: u64::from(words) + SLACK,
        })
    }
}

// Whether the walk goes on after a difference. A second walk costs less if the first has come no
// further than a quarter of the message, or if the message is amplified. A far pointer may have a
// form that common readers reject, and this walk doesn't look for one.
#[cold]
#[inline(never)]
fn goes_on<M: Segments>(
    message: &M,
    s: u32,
    w: u32,
    may_be_lax: bool,
    amplified: bool,
    end: u32,
) -> bool {
    if amplified || (end != 0 && end < message.len(s) / 4) {
        return false;
    }
    !may_be_lax || kind(message.word(s, w)) != 2
}

// Where a copy has the next object, if it has pointer word `w` of segment 0 and its object's own
// words as they are here, these from `end` on. Following that word costs `cost` words.
#[inline(always)]
fn next_end<M: Segments>(message: &M, s: u32, w: u32, cost: u64, end: u32) -> Option<u32> {
    // Of segment `s`, as the walk reads it: so the compiler reads the word once.
    let word = message.word(s, w);
    if w + 1 + middle(word) != end {
        return other_end(message, w, end);
    }
    match kind(word) {
        0 => struct_end(message, s, w, word, cost, end),
        1 => list_end(message, s, w, word, cost, end),
        _ => other_end(message, w, end),
    }
}

// The same of the word of a struct that leads to the end. The struct takes what the word costs.
#[inline(always)]
fn struct_end<M: Segments>(
    message: &M,
    s: u32,
    w: u32,
    word: u64,
    cost: u64,
    end: u32,
) -> Option<u32> {
    if cost == 0 {
        return other_end(message, w, end);
    }
    let (data_words, pointers) = (u32::from(data_size(word)), u32::from(pointer_size(word)));
    if !needs_all(message, s, end, data_words, pointers) {
        return None;
    }
    Some(end + cost as u32)
}

// The same of the word of a list. A list of pointers or of values with bits takes what the word
// costs.
#[inline(always)]
fn list_end<M: Segments>(
    message: &M,
    s: u32,
    w: u32,
    word: u64,
    cost: u64,
    end: u32,
) -> Option<u32> {
    let code = code(word);
    if code == 6 {
        return Some(end + cost as u32);
    }
    if code == 7 {
        return structs_end(message, s, w, word, end);
    }
    if code == 0 {
        return other_end(message, w, end);
    }
    if ends_with_values(message, end, code, list_size(word), cost as u32) {
        return Some(end + cost as u32);
    }
    None
}

// The same of any other word. A copy has it if it is null, that of a struct without words, or that
// of a list without bits that leads to the end.
#[inline(never)]
fn other_end<M: Segments>(message: &M, w: u32, end: u32) -> Option<u32> {
    let word = message.word(0, w);
    if word == 0 {
        return Some(end);
    }
    if w >= end {
        return None;
    }
    if word == NO_WORDS {
        return Some(end);
    }
    if is_empty_list(word, w, end) {
        return Some(end);
    }
    None
}

// Whether the word is that of a list without bits that leads to the end.
#[inline(always)]
fn is_empty_list(word: u64, w: u32, end: u32) -> bool {
    kind(word) == 1
        && code(word) == 0
        && u64::from(w) + 1 + u64::from(middle(word)) == u64::from(end)
}
