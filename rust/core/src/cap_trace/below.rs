// crates/cap_trace/src/below.rt without its contracts, by tools/erase: that text is proved, this one is only tested.
//! What a pointer word leads to, as the object that the search goes on through.

use crate::cap_frame::Segments;
use crate::cap_ptr::{follow, levels_taken, Followed, Shape, Target};
use crate::cap_trace::branch::{Branch, Form, WordPlace};

/// Where the search goes on after a pointer word.
pub(crate) enum Below {
    /// Through the object that the pointer leads to, if it has pointers.
    Object(Option<Branch>),
    /// The pointer can't be followed, or leads past the depth limit.
    Blocked,
}

/// Where the search goes on after the pointer word at this place, which leads to this level.
pub(crate) fn look_below<M: Segments>(
    message: &M,
    depth: u32,
    from: &WordPlace,
    level: u32,
) -> Below {
    // Most pointers of a list may be null, and `follow` takes longer to say so (docs/internals/speed.md).
    if message.word(from.segment, from.at) == 0 {
        return Below::Object(None);
    }
    match follow(message, from.segment, from.at) {
        Ok(Followed::Target(target)) => below_target(&target, depth, level),
        Ok(Followed::Null { .. }) => Below::Object(None),
        Ok(Followed::Cap { .. }) => Below::Object(None),
        Err(_) => Below::Blocked,
    }
}

// The same of a word that leads to this target.
fn below_target(target: &Target, depth: u32, level: u32) -> Below {
    if level + levels_taken(&target.shape) > depth {
        return Below::Blocked;
    }
    Below::Object(branch_of(target))
}

// The pointer words of an object, if it has pointers.
fn branch_of(target: &Target) -> Option<Branch> {
    let (segment, start) = (target.segment, target.start);
    match target.shape {
        Shape::Struct {
            data_words,
            pointers,
        } => {
            if pointers == 0 {
                return None;
            }
            let at = start + u32::from(data_words);
            Some(Branch::row(Form::Struct, segment, at, u32::from(pointers)))
        }
        Shape::Scalars { .. } => None,
        Shape::Pointers { count } => {
            if count == 0 {
                return None;
            }
            Some(Branch::row(Form::Pointers, segment, start, count))
        }
        Shape::Structs {
            count,
            data_words,
            pointers,
            ..
        } => {
            if count == 0 || pointers == 0 {
                return None;
            }
            Some(Branch {
                data_words,
                pointers,
                ..Branch::row(Form::Structs, segment, start + 1, count)
            })
        }
    }
}
