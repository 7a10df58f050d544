// crates/cap_vet/src/vetting.rt without its contracts, by tools/erase: that text is proved, this one is only tested.
//! The verdict of a message.

use crate::cap_frame::Segments;
use crate::cap_ptr::Place;
use crate::cap_spec::Refusal;
use crate::cap_vet::nodes::vetted::Vetted;
use crate::cap_walk::{walk, FirstTurn, Limits, Report, Stopped, Turn};
use core::convert::Infallible;

/// Walks a message from its root in preorder, the pointers of each object in order. Accepts it if
/// the root denotes a finite tree within the limits (encoding: Security Considerations). Allocates
/// nothing.
///
/// # Errors
///
/// A refusal names the first pointer word in preorder at which anything is wrong or a limit is
/// passed, and the first reason that applies there. Its `pointers` counts the pointer words that
/// were looked at, that one included.
///
/// - [`crate::Reason::NoRoot`]: segment 0 has no words. It is refused at 0:0, and `pointers` is 0.
/// - `Reserved` to `CompositeOverrun`: the pointer can't be followed, see [`crate::Reason`].
/// - [`crate::Reason::DepthLimit`]: its target is past the depth limit, or the structs of its target
///   are.
/// - [`crate::Reason::WordLimit`]: the charges up to it, its own included, are more than the word
///   limit.
pub fn vet<'m, M: Segments>(message: &'m M, limits: Limits) -> Result<Vetted<'m, M>, Refusal> {
    let mut report = Report::default();
    match walk(message, &limits, &mut Plain, &mut report) {
        Ok(()) => {}
        Err(Stopped::Refused(refusal)) => return Err(refusal),
        Err(Stopped::ByTurn(never)) => match never {},
    }
    Ok(Vetted { message, report })
}

/// Vets a message as [`vet`] does, and takes a turn at each pointer word but null ones, in preorder.
/// Returns the turn as it is after the last. Walks once. Allocates nothing.
///
/// # Errors
///
/// - [`Stopped::Refused`]: `vet` refuses the message, and the turn didn't stop the walk before.
/// - [`Stopped::ByTurn`]: the turn stopped the walk.
#[inline(always)]
pub fn vet_with_turn<'m, M: Segments, T: FirstTurn>(
    message: &'m M,
    limits: Limits,
) -> Result<(Vetted<'m, M>, T), Stopped<T::Stop>> {
    let mut turn = match T::begin(message) {
        Ok(turn) => turn,
        Err(stop) => return Err(Stopped::ByTurn(stop)),
    };
    let mut report = Report::default();
    match walk(message, &limits, &mut turn, &mut report) {
        Ok(()) => Ok((Vetted { message, report }, turn)),
        Err(stopped) => Err(stopped),
    }
}

// A walk that only counts.
struct Plain;

impl Turn for Plain {
    type Stop = Infallible;

    #[inline(always)]
    fn after<M: Segments>(
        &mut self,
        _message: &M,
        _s: u32,
        _w: u32,
        _object: Place,
        _may_be_lax: bool,
        _pointers: u64,
        _cost: u64,
    ) -> Result<(), Infallible> {
        Ok(())
    }
}
