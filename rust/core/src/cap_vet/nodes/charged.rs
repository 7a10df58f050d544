// crates/cap_vet/src/nodes/charged.rt without its contracts, by tools/erase: that text is proved, this one is only tested.
//! Getters of messages that weren't vetted.

use crate::cap_frame::Segments;
use crate::cap_ptr::levels_of_elements;
use crate::cap_spec::{Reason, Refusal, Step};
use crate::cap_vet::nodes::budget::Budget;
use crate::cap_vet::nodes::found::{element, found_of, Found};
use crate::cap_vet::nodes::spot::Spot;
use crate::cap_vet::nodes::view::View;
use crate::cap_vet::strictness::path_strictness::first_lax;
use crate::cap_vet::strictness::strict_turn::LaxPointer;
use crate::cap_walk::follow_within;

/// Where the steps of a path have arrived so far.
#[derive(Clone, Copy)]
pub(crate) struct Arrival {
    // What the path arrived at.
    pub(crate) found: Found,
    // The level of it, 1 for the root.
    pub(crate) level: u64,
    // What following the pointers on the way cost, in words.
    pub(crate) consumed: u64,
    // How many pointers that were.
    pub(crate) pointers: u64,
    // The first of them that common readers reject.
    pub(crate) lax: Option<LaxPointer>,
}

// Arrives at the root.
#[inline(always)]
pub(crate) fn at_root<M: Segments>(
    message: &M,
    words: u64,
    depth: u32,
) -> Result<Arrival, Refusal> {
    if message.len(0) == 0 {
        return Err(Refusal {
            segment: 0,
            word: 0,
            reason: Reason::NoRoot,
            pointers: 0,
        });
    }
    match follow_within(message, words, depth, 0, 0, 1) {
        Ok(followed) => Ok(Arrival {
            found: found_of(followed),
            level: 1,
            consumed: followed.charge(),
            pointers: 1,
            lax: first_lax(message, None, 0, 0, 1),
        }),
        Err(reason) => Err(Refusal {
            segment: 0,
            word: 0,
            reason,
            pointers: 1,
        }),
    }
}

impl Arrival {
    // Takes one step, to what the step's pointer leads to or to an element. `None` if the step
    // leads to nothing.
    #[inline(always)]
    pub(crate) fn step<M: Segments>(
        &self,
        message: &M,
        words: u64,
        depth: u32,
        step: Step,
    ) -> Result<Option<Arrival>, Refusal> {
        match self.found.step(step) {
            None => Ok(None),
            Some(Spot::Word { segment, word }) => {
                let left = words - self.consumed;
                let level = self.level + 1;
                let pointers = self.pointers + 1;
                match follow_within(message, left, depth, segment, word, level) {
                    Ok(followed) => Ok(Some(Arrival {
                        found: found_of(followed),
                        level,
                        consumed: self.consumed + followed.charge(),
                        pointers,
                        lax: first_lax(message, self.lax, segment, word, pointers),
                    })),
                    Err(reason) => Err(Refusal {
                        segment,
                        word,
                        reason,
                        pointers,
                    }),
                }
            }
            Some(Spot::Element {
                segment,
                start,
                data_words,
                pointers,
            }) => Ok(Some(self.at_element(segment, start, data_words, pointers))),
        }
    }

    // What a step to this element arrives at.
    #[inline(always)]
    pub(crate) fn at_element(
        &self,
        segment: u32,
        start: u32,
        data_words: u16,
        pointers: u16,
    ) -> Arrival {
        Arrival {
            found: element(segment, start, data_words, pointers),
            level: self.level + u64::from(levels_of_elements(1)),
            ..*self
        }
    }
}

/// Follows a path in a message that needn't be vetted, and gives what it arrives at (encoding:
/// Security Considerations). Each pointer on the path, the root's among them, is charged to the
/// budget, in words. A word that two steps lead to is charged twice. Allocates nothing.
///
/// `None` if the path arrives at nothing: the pointers up to there are charged all the same.
///
/// # Errors
///
/// The error names the first pointer on the path at which anything is wrong, with the first reason
/// that applies there. `pointers` counts the pointers on the path up to that one, itself included.
/// After an error the budget is as it was.
///
/// - [`Reason::NoRoot`]: segment 0 has no words. `pointers` is 0 then.
/// - `Reserved` to `CompositeOverrun`: the pointer can't be followed, see [`Reason`].
/// - [`Reason::DepthLimit`]: its target is past `depth` levels, or the target's structs are.
/// - [`Reason::WordLimit`]: the charges up to it, its own included, are more words than the budget
///   has.
pub fn get_charged<'m, M: Segments>(
    message: &'m M,
    budget: &mut Budget,
    depth: u32,
    path: &[Step],
) -> Result<Option<View<'m, M>>, Refusal> {
    let words = budget.words;
    let mut at = match at_root(message, words, depth) {
        Ok(root) => root,
        Err(refusal) => return Err(refusal),
    };
    for step in path {
        match at.step(message, words, depth, *step) {
            Ok(Some(next)) => at = next,
            Ok(None) => {
                budget.words = words - at.consumed;
                return Ok(None);
            }
            Err(fault) => return Err(fault),
        }
    }
    budget.words = words - at.consumed;
    let view = View {
        message,
        found: at.found,
    };
    Ok(Some(view))
}
