// crates/cap_vet/src/exclusiveness/marks.rt without its contracts, by tools/erase: that text is proved, this one is only tested.
//! Which words of a message are marked, a bit for each.

use crate::cap_frame::{message_words, Segments};
use crate::cap_ptr::{far_segment, kind, pad, two, Place, Pointer};
use arrayvec::ArrayVec;

/// The number of `u64`s that the marks of a message of `words` words take: one bit for each word of
/// all segments together.
pub fn marks_for(words: u64) -> usize {
    (words / 64 + 1) as usize
}

/// How many numbers of 64 bits hold a bit for each word of a message.
pub(crate) fn numbers_for<M: Segments>(message: &M) -> usize {
    marks_for(message_words(message))
}

/// The marks of a message's words, a bit for each.
pub(crate) struct Marks<'a> {
    /// Where the bits of each segment's words start.
    pub(crate) starts: &'a [u64],
    pub(crate) bits: &'a mut [u64],
}

/// Fills an empty table with where the bits of each segment's words start, those of one segment after
/// those of the other.
// The caller has the table, since a table that is returned takes its 4 KiB of stack once more.
pub(crate) fn fill_starts<M: Segments>(message: &M, starts: &mut ArrayVec<u64, 512>) {
    let mut words = 0u64;
    for s in 0..message.count() {
        starts.push(words);
        words += u64::from(message.len(s));
    }
}

impl Marks<'_> {
    /// Marks what following the pointer at word `w` of segment `s` uses, its pads and the words of its
    /// object. Returns `false` if a part of it is used twice or was marked before.
    // It is inlined, but not for pads that lie apart: a walk may look at millions of words.
    #[inline(always)]
    pub(crate) fn mark_pointer<M: Segments>(
        &mut self,
        message: &M,
        s: u32,
        w: u32,
        object: Place,
    ) -> bool {
        match in_a_row(message, s, w, &object) {
            Some(place) => self.mark_words(place.segment, place.start, place.words),
            None => self.mark_far(message, s, w, object),
        }
    }

    // The same of a far pointer, whose pads may be anywhere.
    #[inline(never)]
    fn mark_far<M: Segments>(&mut self, message: &M, s: u32, w: u32, object: Place) -> bool {
        if !self.mark_pads(message, s, w) {
            return false;
        }
        self.mark_words(object.segment, object.start, object.words)
    }

    // Marks the pad words of a pointer.
    fn mark_pads<M: Segments>(&mut self, message: &M, s: u32, w: u32) -> bool {
        match Pointer::of(message.word(s, w)) {
            Pointer::Far { two, pad, segment } => {
                let pads = if two { 2 } else { 1 };
                self.mark_words(segment, pad, pads)
            }
            _ => true,
        }
    }

    /// Marks `count` words of segment `s` from word `from` on, or returns `false` if one of them was
    /// marked before.
    #[inline(always)]
    pub(crate) fn mark_words(&mut self, s: u32, from: u32, count: u32) -> bool {
        let start = self.starts[s as usize] + u64::from(from);
        set_bits(self.bits, start, u64::from(count))
    }
}

// The words that following this pointer uses, if they are in a row: those of its object, with its pads
// right before them. Most writers put a pad there. `None` says nothing of the words.
#[inline(always)]
fn in_a_row<M: Segments>(message: &M, s: u32, w: u32, object: &Place) -> Option<Place> {
    let word = message.word(s, w);
    if kind(word) != 2 {
        return Some(*object);
    }
    let pads = 1 + u32::from(two(word));
    let start = pad(word);
    if far_segment(word) != object.segment || start + pads != object.start {
        return None;
    }
    Some(Place {
        segment: object.segment,
        start,
        words: pads + object.words,
    })
}

// Sets `count` bits from bit `from` on, or answers `false` where one of them was set before.
// Most objects have their bits in one number.
#[inline(always)]
fn set_bits(words: &mut [u64], from: u64, count: u64) -> bool {
    let low = from % 64;
    let high = low + count;
    if low >= high || high > 64 {
        return set_more(words, from, count);
    }
    let ones = mask(low as u32, high as u32);
    let k = (from / 64) as usize;
    if words[k] & ones != 0 {
        return false;
    }
    words[k] |= ones;
    true
}

// The same of bits in several numbers, or of none.
#[inline(never)]
fn set_more(words: &mut [u64], from: u64, count: u64) -> bool {
    let end = from + count;
    let mut at = from;
    while at < end {
        let low = at % 64;
        let high = (low + (end - at)).min(64);
        let ones = mask(low as u32, high as u32);
        let k = (at / 64) as usize;
        if words[k] & ones != 0 {
            return false;
        }
        words[k] |= ones;
        at += high - low;
    }
    true
}

// The bits from `low` up to `high`.
#[inline(always)]
fn mask(low: u32, high: u32) -> u64 {
    (u64::MAX >> (64 - (high - low))) << low
}
