// crates/cap_trace/src/seeking.rt without its contracts, by tools/erase: that text is proved, this one is only tested.
//! The search for a pointer word by its number in preorder.

use crate::cap_frame::Segments;
use crate::cap_trace::below::{look_below, Below};
use crate::cap_trace::branch::{Branch, Form, WordPlace};
use crate::cap_walk::nulls;
use arrayvec::ArrayVec;

/// The most steps of a path to a pointer word: each takes a level, and no limit allows a deeper one.
pub(crate) const STEPS: usize = 256;

/// The steps on the way down to a pointer word, with the words that come after it.
pub(crate) type BranchStack = ArrayVec<Branch, STEPS>;

/// The root word, which no step leads to.
pub(crate) const ROOT: WordPlace = WordPlace { segment: 0, at: 0 };

/// Looks at the pointer words of a message in preorder, from the root word up to that of this number,
/// and gives its place. The branches are then the steps to it. `None` if there is no such word, or if
/// a pointer before it can't be followed or leads past the depth limit.
pub(crate) fn seek<M: Segments>(
    message: &M,
    depth: u32,
    number: u64,
    branches: &mut BranchStack,
) -> Option<WordPlace> {
    if number == 0 || message.len(0) == 0 {
        return None;
    }
    let mut here = ROOT;
    let mut at = 1;
    'words: loop {
        at += pass_nulls(message, number - at, branches, &mut here);
        if at == number {
            return Some(here);
        }
        match pass(message, depth, branches, &here) {
            Some(next) => here = next,
            None => return None,
        }
        at += 1;
    }
}

/// Goes on over null words while another word of their row follows, and over at most `most` of them.
/// Gives how many. Most pointers of a row may be null, and each of these costs as little as in a
/// walk (docs/internals/speed.md).
#[inline(always)]
pub(crate) fn pass_nulls<M: Segments>(
    message: &M,
    most: u64,
    branches: &mut BranchStack,
    here: &mut WordPlace,
) -> u64 {
    if message.word(here.segment, here.at) != 0 || !has_words_left(branches) {
        return 0;
    }
    match branches.pop() {
        Some(row) => {
            let left = u64::from(row.count - row.taken).min(most) as u32;
            let passed = nulls(message, here.segment, here.at, left);
            let row = row.taken_more(passed);
            *here = row.place();
            branches.push(row);
            u64::from(passed)
        }
        None => 0,
    }
}

// Whether the last branch has words left. Many rows end with null, and are then left as they are.
#[inline(always)]
fn has_words_left(branches: &BranchStack) -> bool {
    match branches.as_slice().last() {
        Some(branch) => branch.taken < branch.count,
        None => false,
    }
}

/// Goes on to the next pointer word in preorder, and gives its place. `None` if there is none, or if
/// the pointer here can't be followed or leads past the depth limit.
pub(crate) fn pass<M: Segments>(
    message: &M,
    depth: u32,
    branches: &mut BranchStack,
    here: &WordPlace,
) -> Option<WordPlace> {
    match look_below(message, depth, here, level_after(branches)) {
        Below::Object(Some(branch)) => {
            branches.push(branch);
            go_on(branches)
        }
        Below::Object(None) => go_on(branches),
        Below::Blocked => None,
    }
}

// The level of what the word after these steps leads to: each step takes a level.
fn level_after(branches: &BranchStack) -> u32 {
    branches.len() as u32 + 1
}

// Takes the next of the words that the branches have left, and gives its place. Branches that have
// nothing left are taken away.
fn go_on(branches: &mut BranchStack) -> Option<WordPlace> {
    'up: loop {
        match branches.pop() {
            Some(branch) => {
                if branch.taken < branch.count {
                    return Some(take(branches, &branch));
                }
            }
            None => return None,
        }
    }
}

// Takes the next word that this branch has left, and gives its place. The branch comes after the others.
fn take(branches: &mut BranchStack, branch: &Branch) -> WordPlace {
    let mut row = *branch;
    if let Form::Structs = branch.form {
        row = branch.element();
        branches.push(branch.taken_more(1));
    }
    let row = row.taken_more(1);
    branches.push(row);
    row.place()
}
