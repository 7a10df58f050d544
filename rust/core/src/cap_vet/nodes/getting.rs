// crates/cap_vet/src/nodes/getting.rt without its contracts, by tools/erase: that text is proved, this one is only tested.
//! Getters of messages that weren't vetted, under demands.

use crate::cap_frame::Segments;
use crate::cap_spec::StrictRefusal;
use crate::cap_vet::nodes::charged::{at_root, Arrival};
use crate::cap_vet::nodes::near_arrival::at_root_near;
use crate::cap_vet::nodes::path_end::PathEnd;
use crate::cap_vet::nodes::step_source::StepSource;
use crate::cap_vet::nodes::view::View;
use crate::cap_vet::strictness::path_strictness::strict_fault;
use crate::cap_walk::{limits_under, Demands, Limits};

/// Follows a path in a message that needn't be vetted, under demands, and gives what it arrives at
/// (encoding: Security Considerations). The limits and demands are those of [`crate::vet_with`], and
/// apply to the pointers on the path alone, the root's among them. A word that two steps lead to is
/// charged twice. What is wrong beside the path isn't noticed. Allocates nothing.
///
/// `None` if the path arrives at nothing.
///
/// # Errors
///
/// - [`StrictRefusal::Refused`]: the first pointer on the path that is wrong, or past a limit, as for
///   [`crate::get_charged`].
/// - [`StrictRefusal::ManySegments`], [`StrictRefusal::Pointer`]: a strict message is demanded, no
///   pointer on the path is refused, and the message has 512 segments, or a pointer on the path has
///   a form in [`crate::Lax`]. The first one on the path is named. Its `pointers` counts the
///   pointers on the path up to it, that one included.
pub fn get_with<'m, M: Segments, S: StepSource + Copy>(
    message: &'m M,
    limits: Limits,
    demands: Demands,
    path: S,
) -> Result<Option<View<'m, M>>, StrictRefusal> {
    let limits = limits_under(message, limits, demands);
    given_within(message, limits.words(), limits.depth(), demands, path)
}

// The same within limits under the demands. What looks alone find is given apart, since it then
// stays in registers.
#[inline(always)]
fn given_within<'m, M: Segments, S: StepSource + Copy>(
    message: &'m M,
    words: u64,
    depth: u32,
    demands: Demands,
    path: S,
) -> Result<Option<View<'m, M>>, StrictRefusal> {
    match follow_near(message, words, depth, path) {
        Some(at) => given(message, demands, PathEnd::To(at)),
        None => given(message, demands, follow_any(message, words, depth, path)),
    }
}

/// What is given under demands for a path with this end.
#[inline(always)]
pub(crate) fn given<'m, M: Segments>(
    message: &'m M,
    demands: Demands,
    end: PathEnd,
) -> Result<Option<View<'m, M>>, StrictRefusal> {
    match end {
        PathEnd::To(at) => match strict_fault(message, demands, at.lax) {
            Some(fault) => Err(fault),
            None => Ok(Some(View {
                message,
                found: at.found,
            })),
        },
        PathEnd::Early(at) => match strict_fault(message, demands, at.lax) {
            Some(fault) => Err(fault),
            None => Ok(None),
        },
        PathEnd::Refused(refusal) => Err(StrictRefusal::Refused(refusal)),
    }
}

/// Follows a path from the root as far as it leads.
#[inline(always)]
pub(crate) fn follow_path<M: Segments, S: StepSource + Copy>(
    message: &M,
    words: u64,
    depth: u32,
    path: S,
) -> PathEnd {
    // Such looks alone follow most paths, and they need no memory.
    match follow_near(message, words, depth, path) {
        Some(at) => PathEnd::To(at),
        None => follow_any(message, words, depth, path),
    }
}

// Follows a path from the root, if a look at each pointer on it shows where that leads.
#[inline(always)]
fn follow_near<M: Segments, S: StepSource + Copy>(
    message: &M,
    words: u64,
    depth: u32,
    path: S,
) -> Option<Arrival> {
    let mut at = at_root_near(message, words, depth)?;
    let mut left = path;
    while let Some(step) = left.next_step() {
        match at.step_near(message, words, depth, step) {
            Some(next) => at = next,
            None => return None,
        }
    }
    Some(Arrival { lax: None, ..at })
}

// Follows any path from the root as far as it leads.
#[inline(never)]
fn follow_any<M: Segments, S: StepSource + Copy>(
    message: &M,
    words: u64,
    depth: u32,
    path: S,
) -> PathEnd {
    match at_root(message, words, depth) {
        Ok(root) => along(message, words, depth, root, path),
        Err(refusal) => PathEnd::Refused(refusal),
    }
}

/// Goes on along a path from where its first steps arrived, as far as it leads.
#[inline(always)]
pub(crate) fn along<M: Segments, S: StepSource + Copy>(
    message: &M,
    words: u64,
    depth: u32,
    from: Arrival,
    rest: S,
) -> PathEnd {
    let mut left = rest;
    let mut at = from;
    while let Some(step) = left.next_step() {
        match at.step(message, words, depth, step) {
            Ok(Some(next)) => at = next,
            Ok(None) => return PathEnd::Early(at),
            Err(refusal) => return PathEnd::Refused(refusal),
        }
    }
    PathEnd::To(at)
}
