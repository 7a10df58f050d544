// crates/cap_canon/src/walk.rt without its contracts, by tools/erase: that text is proved, this one is only tested.
//! The walk over an accepted message, in preorder: one pointer word a turn.

use crate::cap_canon::objects::{leads_to_null, object_at, Object};
use crate::cap_canon::run::{CopyRun, PointerPlace};
use crate::cap_canon::stack::{go_on, own_words, run_of, Stack};
use crate::cap_frame::Segments;
use crate::cap_vet::nulls;

/// What a walk does at each object.
pub(crate) trait Pass {
    /// Takes a turn: the pointer word at `place` leads to `object`, and a copy has the words of the
    /// object itself from `end` on.
    fn visit<M: Segments>(&mut self, message: &M, object: &Object, place: PointerPlace, end: u32);

    /// Takes the turns at `count` null pointer words in a row, which become those from `slot` on of
    /// the copy.
    fn visit_nulls(&mut self, slot: u32, count: u32);
}

/// Walks a message of this depth. Returns how many words its canonical copy has. Each message
/// initializes its runs, so a walk that can't be deep has few of them. It isn't inlined: a caller that
/// walks twice has the stack of one walk at a time.
#[inline(never)]
pub(crate) fn walk<M: Segments, P: Pass>(message: &M, depth: u32, pass: &mut P) -> u32 {
    if depth <= 8 {
        return walk_within::<M, P, 8>(message, depth, pass);
    }
    if depth <= 64 {
        return walk_within::<M, P, 64>(message, depth, pass);
    }
    walk_within::<M, P, 256>(message, depth, pass)
}

// The same with capacity for `N` runs. The current run is beside the stack, so that a word with
// nothing below it costs no push and no pop. Zero words have turns of their own, which make no
// object: most words of a list may be zero.
fn walk_within<M: Segments, P: Pass, const N: usize>(message: &M, depth: u32, pass: &mut P) -> u32 {
    let mut stack: Stack<N> = Stack::new();
    let mut run = root();
    let mut end = 1;
    'walk: loop {
        if leads_to_null(message, run.segment, run.at) {
            pass_nulls(message, &mut run, pass);
            if !go_on(&mut stack, &mut run, None) {
                return end;
            }
            continue;
        }
        let place = PointerPlace {
            segment: run.segment,
            word: run.at,
            slot: run.slot,
        };
        let object = object_at(message, place.segment, place.word);
        pass.visit(message, &object, place, end);
        let below = run_of(&object, end);
        end += own_words(&object);
        if !go_on(&mut stack, &mut run, below) {
            return end;
        }
    }
}

// Takes the turns at a zero word and at those that follow it in its row. The run is then at the last
// of them.
#[inline(always)]
fn pass_nulls<M: Segments, P: Pass>(message: &M, run: &mut CopyRun, pass: &mut P) {
    let more = nulls_after(message, run);
    if more == 0 {
        pass.visit_nulls(run.slot, 1);
        return;
    }
    pass.visit_nulls(run.slot, more + 1);
    run.at += more;
    run.slot += more;
    run.left -= more;
}

// How many null words come after the first word of a run in its row.
#[inline(always)]
fn nulls_after<M: Segments>(message: &M, run: &CopyRun) -> u32 {
    if run.left < 2 {
        return 0;
    }
    nulls(message, run.segment, run.at + 1, run.left - 1)
}

// The root word alone.
#[inline(always)]
fn root() -> CopyRun {
    CopyRun {
        segment: 0,
        at: 0,
        slot: 0,
        left: 1,
        more: 0,
        skip: 0,
        gap: 0,
        pointers: 0,
    }
}
