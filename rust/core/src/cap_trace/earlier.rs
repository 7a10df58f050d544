// crates/cap_trace/src/earlier.rt without its contracts, by tools/erase: that text is proved, this one is only tested.
//! The first pointer that uses a word which a later pointer uses too.

use crate::cap_frame::Segments;
use crate::cap_trace::seeking::{pass, pass_nulls, seek, BranchStack, ROOT};
use crate::cap_trace::used_words::{uses_one, UsedWords};
use crate::cap_walk::Limits;

/// The first pointer that uses a word which a later pointer uses too.
#[derive(Clone, Copy, Debug, PartialEq, Eq)]
pub struct EarlierPointer {
    /// The segment of its pointer word, counted from 0.
    pub segment: u32,
    /// The word in that segment, counted from 0.
    pub word: u32,
    /// Its number in preorder, where the root word is number 1.
    pub pointers: u64,
}

/// The first pointer in preorder that uses a word which the pointer word of this number uses too.
/// `number` may be the `pointers` of an overlap. A pointer uses its landing pads and the words of its
/// object. [`crate::path_of_pointer`] writes the path of either number.
///
/// `None` if no pointer before that word uses such a word. So it is for an overlap whose pointer uses
/// a word twice itself, or the root word, and shares no other. `None` also if the message has no word
/// of this number, or if a pointer before it can't be followed or leads past the depth limit. The
/// word limit has no effect. Walks over the pointer words before that one twice. Allocates nothing.
pub fn earlier_pointer<M: Segments>(
    message: &M,
    limits: Limits,
    number: u64,
) -> Option<EarlierPointer> {
    earlier_within(message, limits.depth(), number)
}

// The same by the depth limit alone. Its stack of branches is no part of a caller's frame.
#[inline(never)]
fn earlier_within<M: Segments>(message: &M, depth: u32, number: u64) -> Option<EarlierPointer> {
    let mut branches = BranchStack::new();
    let named = seek(message, depth, number, &mut branches)?;
    let used = UsedWords::at(message, named.segment, named.at)?;
    branches.clear();
    first_using(message, depth, number, &used, &mut branches)
}

// The first pointer that uses one of these words, of those before the word of this number.
fn first_using<M: Segments>(
    message: &M,
    depth: u32,
    number: u64,
    used: &UsedWords,
    branches: &mut BranchStack,
) -> Option<EarlierPointer> {
    let mut here = ROOT;
    let mut at = 1;
    'words: loop {
        at += pass_nulls(message, number - at, branches, &mut here);
        if at == number {
            return None;
        }
        if uses_one(message, here.segment, here.at, used) {
            return Some(EarlierPointer {
                segment: here.segment,
                word: here.at,
                pointers: at,
            });
        }
        match pass(message, depth, branches, &here) {
            Some(next) => here = next,
            // The word of this number comes later.
            None => unreachable!(),
        }
        at += 1;
    }
}
