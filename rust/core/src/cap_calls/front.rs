// crates/cap_calls/src/front.rt without its contracts, by tools/erase: that text is proved, this one is only tested.
//! The frame at the start of bytes.

use crate::cap_calls::limits::CallLimits;
use crate::cap_frame::{front_of, Framed, FrontFault, SizeLimit};
use crate::cap_vet::Limits;

/// Why there is no frame to report.
#[derive(Clone, Copy, Debug, PartialEq, Eq)]
pub enum NoFrame {
    /// A limit is above its maximum, a flag or the form is unknown, or a reserved field isn't 0.
    BadLimits,
    /// There are no bytes.
    NoMessage,
    /// The bytes start with no message within the limit.
    Fault(FrontFault),
}

// The frame at the start of bytes, with the limits of a walk through its message.
pub(crate) fn front<'b>(
    bytes: &'b [u8],
    limits: &CallLimits,
) -> Result<(Framed<'b>, Limits), NoFrame> {
    let (size, walk) = if let Some((size, walk)) = checked(limits) {
        (size, walk)
    } else {
        return Err(NoFrame::BadLimits);
    };
    match front_of(bytes, size) {
        Ok(Some(framed)) => Ok((framed, walk)),
        Ok(None) => Err(NoFrame::NoMessage),
        Err(fault) => Err(NoFrame::Fault(fault)),
    }
}

// The limit of the size and those of a walk, or `None` if they aren't limits of a frame.
#[inline(always)]
pub(crate) fn checked(limits: &CallLimits) -> Option<(SizeLimit, Limits)> {
    if !limits.has_known_flags() {
        return None;
    }
    let size = if let Some(size) = SizeLimit::new(limits.message_words) {
        size
    } else {
        return None;
    };
    let walk = if let Some(walk) = Limits::new(limits.charge, limits.depth) {
        walk
    } else {
        return None;
    };
    Some((size, walk))
}
