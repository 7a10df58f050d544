// crates/cap_canon/src/stack.rt without its contracts, by tools/erase: that text is proved, this one is only tested.
//! The pointer words that a walk still has to look at.

use crate::cap_canon::objects::{Object, Part};
use crate::cap_canon::run::CopyRun;
use arrayvec::ArrayVec;

/// The pointer words still to be looked at after those of the current run, the next ones last: one
/// run for each object on the way down that has some left. A walk to a depth of at most `N` has
/// capacity for all of them.
pub(crate) type Stack<const N: usize> = ArrayVec<CopyRun, N>;

/// Goes on after the first word of the run, first with the run below that word. `false` if no word
/// is left.
#[inline(always)]
pub(crate) fn go_on<const N: usize>(
    stack: &mut Stack<N>,
    run: &mut CopyRun,
    below: Option<CopyRun>,
) -> bool {
    match below {
        Some(below) => {
            let more = run.advance();
            push_kept(stack, more, *run);
            *run = below;
            true
        }
        None => {
            if run.advance() {
                return true;
            }
            match stack.pop() {
                Some(next) => {
                    *run = next;
                    true
                }
                None => false,
            }
        }
    }
}

// One more run, where something is left of it.
#[inline(always)]
fn push_kept<const N: usize>(stack: &mut Stack<N>, more: bool, run: CopyRun) {
    if more {
        stack.push(run);
    }
}

/// The pointer words of an object. The object's own words are laid from `end` on.
#[inline(always)]
pub(crate) fn run_of(object: &Object, end: u32) -> Option<CopyRun> {
    match *object {
        Object::Struct(part) => row_run(
            part.segment,
            part.start + part.data_words,
            end + part.data_left,
            part.pointers_left,
        ),
        Object::Pointers {
            segment,
            start,
            count,
        } => row_run(segment, start, end, count),
        Object::Structs { count, part } => structs_run(&part, count, end),
        Object::Null => None,
        Object::Cap { .. } => None,
        Object::Scalars { .. } => None,
    }
}

// Those of a list of `count` structs.
#[inline(always)]
fn structs_run(part: &Part, count: u32, end: u32) -> Option<CopyRun> {
    if count == 0 || part.pointers_left == 0 {
        return None;
    }
    Some(CopyRun {
        segment: part.segment,
        at: part.start + part.data_words,
        slot: end + 1 + part.data_left,
        left: part.pointers_left,
        more: count - 1,
        skip: part.pointers - part.pointers_left + part.data_words,
        gap: part.data_left,
        pointers: part.pointers_left,
    })
}

// Pointer words that are in one row.
#[inline(always)]
fn row_run(segment: u32, at: u32, slot: u32, left: u32) -> Option<CopyRun> {
    if left == 0 {
        return None;
    }
    Some(CopyRun {
        segment,
        at,
        slot,
        left,
        more: 0,
        skip: 0,
        gap: 0,
        pointers: 0,
    })
}

/// How many words an object has of its own in the copy.
#[inline(always)]
pub(crate) fn own_words(object: &Object) -> u32 {
    match *object {
        Object::Null => 0,
        Object::Cap { .. } => 0,
        Object::Struct(part) => part.data_left + part.pointers_left,
        Object::Scalars { words, .. } => words,
        Object::Pointers { count, .. } => count,
        Object::Structs { count, part } => 1 + count * (part.data_left + part.pointers_left),
    }
}
