// crates/cap_vet/src/nodes/near_arrival.rt without its contracts, by tools/erase: that text is proved, this one is only tested.
//! Where a path arrives by looks at its pointers alone.

use crate::cap_frame::Segments;
use crate::cap_spec::Step;
use crate::cap_vet::nodes::charged::Arrival;
use crate::cap_vet::nodes::near_found::found_near;
use crate::cap_vet::nodes::spot::Spot;

// Arrives at the root, if a look at its pointer shows where that leads.
#[inline(always)]
pub(crate) fn at_root_near<M: Segments>(message: &M, words: u64, depth: u32) -> Option<Arrival> {
    if message.len(0) == 0 {
        return None;
    }
    let (found, consumed) = found_near(message, words, depth, 0, 0, 1)?;
    Some(Arrival {
        found,
        level: 1,
        consumed,
        pointers: 1,
        lax: None,
    })
}

impl Arrival {
    // Takes one step, if a look at the step's pointer shows where it leads, or to an element. Common
    // readers reject no such pointer, and none before it. So `lax` needs no register in a loop.
    #[inline(always)]
    pub(crate) fn step_near<M: Segments>(
        &self,
        message: &M,
        words: u64,
        depth: u32,
        step: Step,
    ) -> Option<Arrival> {
        match self.found.step(step) {
            None => None,
            Some(Spot::Word { segment, word }) => {
                let left = words - self.consumed;
                let level = self.level + 1;
                let (found, charge) = found_near(message, left, depth, segment, word, level)?;
                Some(Arrival {
                    found,
                    level,
                    consumed: self.consumed + charge,
                    pointers: self.pointers + 1,
                    lax: None,
                })
            }
            Some(Spot::Element {
                segment,
                start,
                data_words,
                pointers,
            }) => Some(Arrival {
                lax: None,
                ..self.at_element(segment, start, data_words, pointers)
            }),
        }
    }
}
