// crates/cap_vet/src/nodes/found.rt without its contracts, by tools/erase: that text is proved, this one is only tested.
//! What is at a spot, and where steps from there lead.

use crate::cap_frame::Segments;
use crate::cap_ptr::{follow, near_target, Followed, Place, Shape, Target};
use crate::cap_spec::{Kind, Step};
use crate::cap_vet::nodes::spot::Spot;

/// What is at a spot: its kind and its words. Null and a capability have no words, at 0:0.
#[derive(Clone, Copy)]
pub(crate) struct Found {
    pub(crate) kind: Kind,
    pub(crate) place: Place,
}

// The kind of an object.
#[inline(always)]
fn kind_of(shape: Shape) -> Kind {
    match shape {
        Shape::Struct {
            data_words,
            pointers,
        } => Kind::Struct {
            data_words,
            pointers,
        },
        Shape::Scalars { code, count } => Kind::Scalars { code, count },
        Shape::Pointers { count } => Kind::Pointers { count },
        Shape::Structs {
            count,
            data_words,
            pointers,
            ..
        } => Kind::Structs {
            count,
            data_words,
            pointers,
        },
    }
}

impl Found {
    /// Where a step leads from there.
    #[inline(always)]
    pub(crate) fn step(&self, step: Step) -> Option<Spot> {
        match step {
            Step::Ptr(i) => self.pointer(i),
            Step::Item(i) => self.item(i),
        }
    }

    // The pointer of a struct.
    #[inline(always)]
    fn pointer(&self, i: u16) -> Option<Spot> {
        let (data_words, pointers) = if let Kind::Struct {
            data_words,
            pointers,
        } = self.kind
        {
            (data_words, pointers)
        } else {
            return None;
        };
        if i >= pointers {
            return None;
        }
        Some(Spot::Word {
            segment: self.place.segment,
            word: self.place.start + u32::from(data_words) + u32::from(i),
        })
    }

    // The element of a list of pointers or of structs.
    #[inline(always)]
    fn item(&self, i: u32) -> Option<Spot> {
        match self.kind {
            Kind::Pointers { count } => {
                if i >= count {
                    return None;
                }
                Some(Spot::Word {
                    segment: self.place.segment,
                    word: self.place.start + i,
                })
            }
            Kind::Structs {
                count,
                data_words,
                pointers,
            } => {
                if i >= count {
                    return None;
                }
                let size = u32::from(data_words) + u32::from(pointers);
                Some(Spot::Element {
                    segment: self.place.segment,
                    start: self.place.start + 1 + i * size,
                    data_words,
                    pointers,
                })
            }
            _ => None,
        }
    }
}

/// What a pointer word leads to.
#[inline(always)]
pub(crate) fn found_of(followed: Followed) -> Found {
    match followed {
        Followed::Null { .. } => Found {
            kind: Kind::Null,
            place: Place::NONE,
        },
        Followed::Cap { index, .. } => Found {
            kind: Kind::Cap { index },
            place: Place::NONE,
        },
        Followed::Target(target) => object(target),
    }
}

/// The object that a pointer word leads to.
#[inline(always)]
pub(crate) fn object(target: Target) -> Found {
    Found {
        kind: kind_of(target.shape),
        place: Place::of(&target),
    }
}

/// What word `w` of segment `s` leads to, which isn't wrong.
#[inline(always)]
pub(crate) fn found_at<M: Segments>(message: &M, s: u32, w: u32) -> Found {
    // Most pointer words alone describe their objects.
    match near_target(message.word(s, w), s, w, message.len(s)) {
        Some(target) => object(target),
        None => found_followed(message, s, w),
    }
}

// The same, where it takes a following.
#[inline(never)]
fn found_followed<M: Segments>(message: &M, s: u32, w: u32) -> Found {
    match follow(message, s, w) {
        Ok(followed) => found_of(followed),
        Err(_) => unreachable!(),
    }
}

/// What an element of a list of structs is.
#[inline(always)]
pub(crate) fn element(segment: u32, start: u32, data_words: u16, pointers: u16) -> Found {
    Found {
        kind: Kind::Struct {
            data_words,
            pointers,
        },
        place: Place {
            segment,
            start,
            words: u32::from(data_words) + u32::from(pointers),
        },
    }
}
