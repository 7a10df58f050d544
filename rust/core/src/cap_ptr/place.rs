// crates/cap_ptr/src/place.rt without its contracts, by tools/erase: that text is proved, this one is only tested.
//! The words of an object.

use crate::cap_ptr::shapes::Target;

/// The words of an object, or of an element of a list of structs.
#[derive(Clone, Copy, Debug, PartialEq, Eq)]
pub struct Place {
    /// Its segment, counted from 0.
    pub segment: u32,
    /// Its first word, counted from 0: the tag of a list of structs.
    pub start: u32,
    /// How many words it takes, a tag and surplus words included.
    pub words: u32,
}

impl Place {
    /// That of null and of a capability, which have no words.
    pub const NONE: Place = Place {
        segment: 0,
        start: 0,
        words: 0,
    };

    /// That of a target.
    #[inline(always)]
    pub fn of(target: &Target) -> Place {
        Place {
            segment: target.segment,
            start: target.start,
            words: target.words,
        }
    }
}
