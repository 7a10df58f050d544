// crates/cap_difference/src/difference.rt without its contracts, by tools/erase: that text is proved, this one is only tested.
//! The first difference between an accepted message and its canonical copy.

use crate::cap_difference::pointers::next_end;
use crate::cap_difference::reason::DifferenceReason;
use crate::cap_frame::Segments;
use crate::cap_vet::{vet_with_turn, FirstTurn, Limits, Place, Stopped, Turn, Vetted};

/// Where a message differs from its canonical copy first, and why.
#[derive(Clone, Copy, Debug, PartialEq, Eq)]
pub struct Difference {
    /// The segment of the pointer that is named, from 0.
    pub segment: u32,
    /// The word of that pointer in its segment, from 0. With `Trailing` it is the first word after all
    /// objects.
    pub word: u32,
    /// How many pointers were looked at, null ones and the named one included; 0 with `Segments`.
    pub pointers: u64,
    /// The first reason that applies there.
    pub reason: DifferenceReason,
    /// How many words a copy has before the object of that pointer: 1 and those of the objects before it
    /// in preorder. 1 with `Segments`, and `word` with `Trailing`.
    pub end: u64,
}

/// Why an accepted message isn't its own canonical copy (encoding: Canonicalization): the first pointer
/// in preorder that isn't as the copy has it, and the first reason there. A message of more than one
/// segment differs before its first pointer. `None` if nothing differs, and no words come after the
/// last object: then the message is its own copy. Walks the message once more, up to the difference.
/// Allocates nothing, and makes no copy.
pub fn first_difference<M: Segments>(v: &Vetted<'_, M>) -> Option<Difference> {
    let message = v.message();
    let report = v.report();
    match vet_with_turn::<M, DifferenceSearch>(message, Limits::greatest()) {
        Ok((_, search)) => trailing(message, search.end, report.pointers),
        Err(Stopped::ByTurn(difference)) => Some(difference),
        // The message is accepted.
        Err(Stopped::Refused(_)) => unreachable!(),
    }
}

// Whether words come after the last object of a message of one segment: a copy ends at word `end`.
fn trailing<M: Segments>(message: &M, end: u64, pointers: u64) -> Option<Difference> {
    if end >= u64::from(message.len(0)) {
        return None;
    }
    Some(Difference {
        segment: 0,
        word: end as u32,
        pointers,
        reason: DifferenceReason::Trailing,
        end,
    })
}

/// A walk through a message that has been as its canonical copy so far. It stops at the first pointer
/// that isn't.
struct DifferenceSearch {
    /// Where a copy has the next object.
    end: u64,
}

impl Turn for DifferenceSearch {
    type Stop = Difference;

    #[inline(always)]
    fn after<M: Segments>(
        &mut self,
        message: &M,
        s: u32,
        w: u32,
        _object: Place,
        _may_be_lax: bool,
        pointers: u64,
        _cost: u64,
    ) -> Result<(), Difference> {
        match next_end(message, s, w, self.end) {
            Ok(end) => {
                self.end = end;
                Ok(())
            }
            Err(reason) => Err(Difference {
                segment: s,
                word: w,
                pointers,
                reason,
                end: self.end,
            }),
        }
    }
}

impl FirstTurn for DifferenceSearch {
    #[inline(always)]
    fn begin<M: Segments>(message: &M) -> Result<DifferenceSearch, Difference> {
        if message.count() != 1 {
            return Err(Difference {
                segment: 0,
                word: 0,
                pointers: 0,
                reason: DifferenceReason::Segments,
                end: 1,
            });
        }
        Ok(DifferenceSearch { end: 1 })
    }
}
