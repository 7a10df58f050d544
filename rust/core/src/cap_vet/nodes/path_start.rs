// crates/cap_vet/src/nodes/path_start.rt without its contracts, by tools/erase: that text is proved, this one is only tested.
//! The first steps that several paths have in common.

use crate::cap_frame::Segments;
use crate::cap_spec::{Kind, Step, StrictRefusal};
use crate::cap_vet::nodes::getting::{along, follow_path, given};
use crate::cap_vet::nodes::path_end::PathEnd;
use crate::cap_vet::nodes::step_source::StepSource;
use crate::cap_vet::nodes::struct_elements::StructElements;
use crate::cap_vet::nodes::view::View;
use crate::cap_vet::strictness::path_strictness::strict_fault;
use crate::cap_walk::{limits_under, Demands, Limits};
use crate::rattle::alloc::AllocError;

/// The first steps of several paths in a message that needn't be vetted, and where they lead
/// (encoding: Security Considerations). The pointers on them are followed once for all of the paths.
pub struct PathStart<'m, M: Segments> {
    message: &'m M,
    demands: Demands,
    // The limits under the demands.
    words: u64,
    depth: u32,
    end: PathEnd,
}

impl<'m, M: Segments> Clone for PathStart<'m, M> {
    fn clone(&self) -> PathStart<'m, M> {
        *self
    }
}

impl<'m, M: Segments> Copy for PathStart<'m, M> {}

impl<'m, M: Segments> PathStart<'m, M> {
    /// Follows the first steps of several paths. The limits and demands are those of
    /// [`crate::get_with`], and apply to each of the paths by itself. Allocates nothing.
    pub fn new<S: StepSource + Copy>(
        message: &'m M,
        limits: Limits,
        demands: Demands,
        first: S,
    ) -> PathStart<'m, M> {
        let limits = limits_under(message, limits, demands);
        let words = limits.words();
        let depth = limits.depth();
        PathStart {
            message,
            demands,
            words,
            depth,
            end: follow_path(message, words, depth, first),
        }
    }

    /// The elements of the list of structs that the first steps lead to. After `None` they lead to no
    /// such list, or to none without a fault: [`PathStart::get`] then has to decide. Allocates nothing.
    pub fn elements(&self) -> Option<StructElements<'m, M>> {
        let at = if let PathEnd::To(at) = self.end {
            at
        } else {
            return None;
        };
        let (count, data_words, pointers) = if let Kind::Structs {
            count,
            data_words,
            pointers,
        } = at.found.kind
        {
            (count, data_words, pointers)
        } else {
            return None;
        };
        match strict_fault(self.message, self.demands, at.lax) {
            Some(_) => None,
            None => Some(StructElements {
                message: self.message,
                segment: at.found.place.segment,
                first: at.found.place.start + 1,
                count,
                data_words,
                pointers,
                left: self.words - at.consumed,
                level: at.level + 2,
                depth: self.depth,
            }),
        }
    }

    /// Goes on with one step more and then with the `rest`, and gives what [`crate::get_with`] gives
    /// for the path of all the steps. Allocates nothing.
    ///
    /// # Errors
    ///
    /// Those of [`crate::get_with`] for that path.
    #[inline(always)]
    pub fn get<S: StepSource + Copy>(
        &self,
        step: Step,
        rest: S,
    ) -> Result<Option<View<'m, M>>, StrictRefusal> {
        let end = match self.end {
            PathEnd::To(at) => match at.step(self.message, self.words, self.depth, step) {
                Ok(Some(next)) => along(self.message, self.words, self.depth, next, rest),
                Ok(None) => PathEnd::Early(at),
                Err(refusal) => PathEnd::Refused(refusal),
            },
            PathEnd::Early(at) => PathEnd::Early(at),
            PathEnd::Refused(refusal) => PathEnd::Refused(refusal),
        };
        given(self.message, self.demands, end)
    }
}
