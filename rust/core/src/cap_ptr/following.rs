// crates/cap_ptr/src/following.rt without its contracts, by tools/erase: that text is proved, this one is only tested.
//! Following a pointer word, through its landing pads.

use crate::cap_frame::Segments;
use crate::cap_ptr::forms::{far_segment, kind, middle, pad, two, Pointer};
use crate::cap_ptr::near::structs_target;
use crate::cap_ptr::shapes::{
    empty_elements, extent, is_structs, plain_shape, start_of, Followed, Target,
};
use crate::cap_spec::Reason;

/// What word `w` of segment `s`, a pointer, leads to: null, a capability, or an object that lies
/// inside its segment. The caller makes sure that the word exists. Allocates nothing.
///
/// A far pointer leads through a landing pad of one or two words, which may lie in any segment
/// (encoding: Inter-Segment Pointers).
///
/// # Errors
///
/// The first reason, in the order of [`Reason`], whose condition holds. It is never `NoRoot`,
/// `DepthLimit` or `WordLimit`.
/// - [`Reason::Reserved`]: the word, or that of a one-word pad, is of kind 3 and no capability.
/// - [`Reason::SegmentMissing`]: a far pointer names a segment that the message doesn't have.
/// - [`Reason::PadOutside`]: the landing pad isn't all inside its segment.
/// - [`Reason::PadIsFar`]: a one-word pad is a far pointer.
/// - [`Reason::PadNotFar`]: the first word of a two-word pad isn't a far pointer to a one-word pad.
/// - [`Reason::TagKind`]: the second word of a two-word pad is no struct and no list pointer.
/// - [`Reason::TagOffset`]: the offset of that word isn't 0.
/// - [`Reason::OutOfSegment`]: the object starts before its segment or ends after it.
/// - [`Reason::CompositeTag`]: the tag of a list of structs isn't laid out as a struct pointer.
/// - [`Reason::CompositeOverrun`]: the elements of a list of structs take more words than it has.
// It is inlined, and so is what it calls at nearly every word: in a walk's loop the result then
// stays in registers.
#[inline(always)]
pub fn follow<M: Segments>(message: &M, s: u32, w: u32) -> Result<Followed, Reason> {
    followed(message, s, w)
}

// What a pointer word leads to.
#[inline(always)]
fn followed<M: Segments>(message: &M, s: u32, w: u32) -> Result<Followed, Reason> {
    let word = message.word(s, w);
    // Null comes first: in many lists of pointers nearly every word is null.
    if word == 0 {
        return Ok(Followed::Null { pads: 0 });
    }
    if kind(word) != 2 {
        return resolved(message, 0, s, w, word);
    }
    if two(word) == 0 {
        return over_one_pad(message, word);
    }
    over_two_pads(message, word)
}

// What the word at this place leads to. The word takes the place of a pointer word, over some pads.
#[inline(always)]
fn resolved<M: Segments>(
    message: &M,
    pads: u8,
    segment: u32,
    place: u32,
    word: u64,
) -> Result<Followed, Reason> {
    match Pointer::of(word) {
        Pointer::Null => Ok(Followed::Null { pads }),
        Pointer::Cap { index } => Ok(Followed::Cap { pads, index }),
        Pointer::Reserved { .. } => Err(Reason::Reserved),
        Pointer::Far { .. } => Err(Reason::PadIsFar),
        Pointer::Struct { .. } => object(message, pads, segment, place, word),
        Pointer::List { .. } => object(message, pads, segment, place, word),
    }
}

// The object of the struct or list pointer at this place. That pointer takes the place of a pointer
// word, over some pads.
#[inline(always)]
fn object<M: Segments>(
    message: &M,
    pads: u8,
    segment: u32,
    place: u32,
    word: u64,
) -> Result<Followed, Reason> {
    let start = if let Some(start) = start_of(place, word) {
        start
    } else {
        return Err(Reason::OutOfSegment);
    };
    target_at(message, pads, segment, start, word)
}

// The target of the word `word`, which encodes its shape, from word `start` of a segment on.
#[inline(always)]
fn target_at<M: Segments>(
    message: &M,
    pads: u8,
    segment: u32,
    start: u64,
    word: u64,
) -> Result<Followed, Reason> {
    let words = extent(word);
    if start + u64::from(words) > u64::from(message.len(segment)) {
        return Err(Reason::OutOfSegment);
    }
    let start = start as u32;
    if is_structs(word) {
        return composite(message, pads, segment, start, word);
    }
    let charge = u64::from(pads) + u64::from(words) + empty_elements(word);
    Ok(Followed::Target(Target {
        segment,
        start,
        words,
        pads,
        charge,
        shape: plain_shape(word),
    }))
}

// The target of the word `word` of a list of structs, whose words lie inside their segment.
// It is inlined, since a call writes its result in pieces, and its caller waits for them.
#[inline(always)]
fn composite<M: Segments>(
    message: &M,
    pads: u8,
    segment: u32,
    start: u32,
    word: u64,
) -> Result<Followed, Reason> {
    let tag = message.word(segment, start);
    match structs_target(word, tag, segment, start, pads) {
        Ok(target) => Ok(Followed::Target(target)),
        Err(reason) => Err(reason),
    }
}

// What a far pointer with a one-word pad leads to.
#[inline(always)]
fn over_one_pad<M: Segments>(message: &M, word: u64) -> Result<Followed, Reason> {
    let segment = far_segment(word);
    let start = pad(word);
    if segment >= message.count() {
        return Err(Reason::SegmentMissing);
    }
    if start + 1 > message.len(segment) {
        return Err(Reason::PadOutside);
    }
    resolved(message, 1, segment, start, message.word(segment, start))
}

// What a far pointer with a two-word pad leads to.
fn over_two_pads<M: Segments>(message: &M, word: u64) -> Result<Followed, Reason> {
    let segment = far_segment(word);
    let start = pad(word);
    if segment >= message.count() {
        return Err(Reason::SegmentMissing);
    }
    if start + 2 > message.len(segment) {
        return Err(Reason::PadOutside);
    }
    let far = message.word(segment, start);
    content(message, far, message.word(segment, start + 1))
}

// The content that the two words of a pad lead to: a far pointer to it, and a tag.
fn content<M: Segments>(message: &M, far: u64, tag: u64) -> Result<Followed, Reason> {
    if !is_one_pad(far) {
        return Err(Reason::PadNotFar);
    }
    let segment = far_segment(far);
    if segment >= message.count() {
        return Err(Reason::SegmentMissing);
    }
    if kind(tag) > 1 {
        return Err(Reason::TagKind);
    }
    if middle(tag) != 0 {
        return Err(Reason::TagOffset);
    }
    target_at(message, 2, segment, u64::from(pad(far)), tag)
}

// A word is a far pointer with a one-word pad.
fn is_one_pad(word: u64) -> bool {
    kind(word) == 2 && two(word) == 0
}
