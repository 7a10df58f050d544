// crates/cap_walk/src/pointer_run.rt without its contracts, by tools/erase: that text is proved, this one is only tested.
//! The run of pointer words that a walk goes on with in an object.

use crate::cap_ptr::{levels_of_elements, Shape, Target};

/// `left` pointer words from `at` on, and then those of `more` further elements. Each element has
/// `data_words` data words and then `pointers` pointers.
#[derive(Clone, Copy, Default)]
pub(crate) struct PointerRun {
    pub(crate) segment: u32,
    pub(crate) at: u32,
    pub(crate) left: u32,
    pub(crate) more: u32,
    pub(crate) data_words: u32,
    pub(crate) pointers: u32,
    /// The level of what these words lead to.
    pub(crate) level: u32,
}

impl PointerRun {
    /// Goes on after the first pointer word. `false` if nothing is left.
    #[inline(always)]
    pub(crate) fn advance(&mut self) -> bool {
        if self.left > 1 {
            self.at += 1;
            self.left -= 1;
            return true;
        }
        if self.more > 0 {
            self.at = self.at + 1 + self.data_words;
            self.left = self.pointers;
            self.more -= 1;
            return true;
        }
        false
    }
}

// The pointer words of an object of this level.
#[inline(always)]
pub(crate) fn run_of(target: &Target, level: u32) -> Option<PointerRun> {
    match target.shape {
        Shape::Struct {
            data_words,
            pointers,
        } => {
            let at = target.start + u32::from(data_words);
            row_run(target.segment, at, u32::from(pointers), level + 1)
        }
        Shape::Scalars { .. } => None,
        Shape::Pointers { count } => row_run(target.segment, target.start, count, level + 1),
        Shape::Structs {
            count,
            data_words,
            pointers,
            ..
        } => {
            if count == 0 || pointers == 0 {
                return None;
            }
            Some(PointerRun {
                segment: target.segment,
                at: target.start + 1 + u32::from(data_words),
                left: u32::from(pointers),
                more: count - 1,
                data_words: u32::from(data_words),
                pointers: u32::from(pointers),
                level: level + 1 + levels_of_elements(1),
            })
        }
    }
}

// The pointer words of a struct or of a list of pointers, which are in one row.
#[inline(always)]
pub(crate) fn row_run(segment: u32, at: u32, left: u32, level: u32) -> Option<PointerRun> {
    if left == 0 {
        return None;
    }
    Some(PointerRun {
        segment,
        at,
        left,
        more: 0,
        data_words: 0,
        pointers: 0,
        level,
    })
}
