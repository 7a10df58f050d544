// crates/cap_walk/src/looking.rt without its contracts, by tools/erase: that text is proved, this one is only tested.
//! Looking at one pointer word within limits.

use crate::cap_frame::Segments;
use crate::cap_ptr::{
    far_segment, follow, kind, levels_taken, middle, near_row, pad, struct_list, two, Followed,
    Place, Reason, Row, Target,
};
use crate::cap_walk::limits::Limits;
use crate::cap_walk::pointer_run::{row_run, run_of, PointerRun};

/// What a pointer word leads to, within the limits.
pub(crate) enum Looked {
    /// Null, at this charge.
    Null(u64),
    /// A capability, at this charge.
    Cap(u64),
    /// An object, at this charge: the deepest level that it takes, its pointer words, and its words.
    Object(u64, u32, Option<PointerRun>, Place),
}

impl Looked {
    /// What following the word costs, in words.
    #[inline(always)]
    pub(crate) fn cost(&self) -> u64 {
        match self {
            Looked::Null(cost) => *cost,
            Looked::Cap(cost) => *cost,
            Looked::Object(cost, _, _, _) => *cost,
        }
    }

    /// The words of the object: none for null and for a capability.
    #[inline(always)]
    pub(crate) fn place(&self) -> Place {
        match self {
            Looked::Null(_) => Place::NONE,
            Looked::Cap(_) => Place::NONE,
            Looked::Object(_, _, _, place) => *place,
        }
    }
}

/// What word `w` of segment `s` leads to, where `left` words may still be charged and its target
/// has this level. The error is the first reason that applies.
#[inline(always)]
pub fn follow_within<M: Segments>(
    message: &M,
    left: u64,
    depth: u32,
    s: u32,
    w: u32,
    level: u64,
) -> Result<Followed, Reason> {
    let followed = follow(message, s, w)?;
    if deepest_level(&followed, level) > u64::from(depth) {
        return Err(Reason::DepthLimit);
    }
    if followed.charge() > left {
        return Err(Reason::WordLimit);
    }
    Ok(followed)
}

// The deepest level that an object of this level takes, and 0 if there is none.
#[inline(always)]
fn deepest_level(followed: &Followed, level: u64) -> u64 {
    match followed {
        Followed::Target(target) => level + u64::from(levels_taken(&target.shape)),
        _ => 0,
    }
}

/// Looks at word `w` of segment `s`, whose target has this level, where `consumed` words were charged
/// before. The error is the first reason that applies.
// It is inlined into the function outside of a walk's loop that asks it, so that its result stays in
// registers.
#[inline(always)]
pub(crate) fn look<M: Segments>(
    message: &M,
    limits: &Limits,
    consumed: u64,
    s: u32,
    w: u32,
    level: u32,
) -> Result<Looked, Reason> {
    let left = limits.words() - consumed;
    let followed = follow_within(message, left, limits.depth(), s, w, u64::from(level))?;
    match followed {
        Followed::Null { pads } => Ok(Looked::Null(u64::from(pads))),
        Followed::Cap { pads, .. } => Ok(Looked::Cap(u64::from(pads))),
        Followed::Target(target) => {
            let deepest = level + levels_taken(&target.shape);
            let run = run_of(&target, level);
            Ok(Looked::Object(
                target.charge,
                deepest,
                run,
                Place::of(&target),
            ))
        }
    }
}

/// Looks at the same word. Returns a result only if it is null or a capability, or if it describes
/// its object, alone or with the tag of a list of structs, and if that is within the limits.
// A walk asks here first: most words are such, and what they lead to then stays in registers.
#[inline(always)]
pub(crate) fn look_near<M: Segments>(
    message: &M,
    limits: &Limits,
    consumed: u64,
    s: u32,
    w: u32,
    level: u32,
) -> Option<Looked> {
    let word = message.word(s, w);
    if word == 0 {
        return Some(Looked::Null(0));
    }
    if let Some(looked) = described_within(message, limits, consumed, 0, s, w, level) {
        return Some(looked);
    }
    if is_cap(word) {
        return Some(Looked::Cap(0));
    }
    None
}

// A word is that of a capability.
#[inline(always)]
fn is_cap(word: u64) -> bool {
    kind(word) == 3 && middle(word) == 0
}

/// What a pointer word leads to over `pads` words of landing pads, where word `at` of this segment
/// takes its place. Returns a result only if that word describes the object, alone or with the tag
/// of a list of structs, and if that is within the limits.
#[inline(always)]
pub(crate) fn described_within<M: Segments>(
    message: &M,
    limits: &Limits,
    consumed: u64,
    pads: u8,
    segment: u32,
    at: u32,
    level: u32,
) -> Option<Looked> {
    let word = message.word(segment, at);
    if let Some(row) = near_row(word, at, message.len(segment)) {
        return row_within(limits, consumed, pads, segment, &row, level);
    }
    let list = struct_list(message, pads, segment, at, word)?;
    target_within(limits, consumed, &list, level)
}

// This row of an object, over some pads. Returns a result only if it is within the limits.
#[inline(always)]
fn row_within(
    limits: &Limits,
    consumed: u64,
    pads: u8,
    segment: u32,
    row: &Row,
    level: u32,
) -> Option<Looked> {
    let cost = u64::from(pads) + u64::from(row.words);
    // The words come first: docs/internals/speed.md has what the other order costs.
    if consumed + cost > limits.words() || level > limits.depth() {
        return None;
    }
    let run = row_run(segment, row.pointers_start, row.pointer_count, level + 1);
    let place = Place {
        segment,
        start: row.start,
        words: row.words,
    };
    Some(Looked::Object(cost, level, run, place))
}

// This target of a pointer word. Returns a result only if it is within the limits.
#[inline(always)]
fn target_within(limits: &Limits, consumed: u64, target: &Target, level: u32) -> Option<Looked> {
    let deepest = level + levels_taken(&target.shape);
    if deepest > limits.depth() || consumed + target.charge > limits.words() {
        return None;
    }
    let run = run_of(target, level);
    Some(Looked::Object(
        target.charge,
        deepest,
        run,
        Place::of(target),
    ))
}

/// Looks at word `w` of segment `s`, as `look_near` does, and also at a far pointer with a pad of one
/// word that describes the object.
#[inline(always)]
pub(crate) fn look_described<M: Segments>(
    message: &M,
    limits: &Limits,
    consumed: u64,
    s: u32,
    w: u32,
    level: u32,
) -> Option<Looked> {
    if let Some(looked) = look_near(message, limits, consumed, s, w, level) {
        return Some(looked);
    }
    let word = message.word(s, w);
    if kind(word) != 2 || two(word) != 0 {
        return None;
    }
    let (segment, at) = (far_segment(word), pad(word));
    if segment >= message.count() || at >= message.len(segment) {
        return None;
    }
    described_within(message, limits, consumed, 1, segment, at, level)
}
