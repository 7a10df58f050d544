// crates/cap_calls/src/over.rt without its contracts, by tools/erase: that text is proved, this one is only tested.
//! A call over the message at the start of bytes.

use crate::cap_calls::found::Found;
use crate::cap_calls::front::front;
use crate::cap_calls::limits::CallLimits;
use crate::cap_frame::{ByteView, Framed, SegmentTables, Segments};
use crate::cap_vet::{Demands, Limits};

/// What a call does with a message.
pub(crate) trait Call {
    /// An item of the call's output.
    type Item;

    /// What it finds of the message that is seen, apart from the extent of its frame.
    /// `words` is how many words its segments have together.
    fn on<'b>(
        &self,
        view: &ByteView<'b>,
        words: u64,
        limits: Limits,
        demands: Demands,
        out: &mut [Self::Item],
    ) -> Found;

    /// The same of a message of one segment, as most are.
    #[inline(always)]
    fn on_one<'b>(
        &self,
        view: &ByteView<'b>,
        words: u64,
        limits: Limits,
        demands: Demands,
        out: &mut [Self::Item],
    ) -> Found {
        self.on(view, words, limits, demands, out)
    }
}

/// What a call finds of the message that bytes start with, or of bytes without one. If the bytes
/// have to be the message as a `whole`, none may follow it.
pub(crate) fn over<C: Call>(
    call: &C,
    whole: bool,
    bytes: &[u8],
    limits: &CallLimits,
    out: &mut [C::Item],
) -> Found {
    match front(bytes, limits) {
        Ok((framed, walk)) => {
            let more = bytes_after(whole, bytes, &framed);
            if more > 0 {
                return Found::trailing(more as u64).framed(&framed, limits);
            }
            over_framed(call, &framed, walk, limits.demands(), out).framed(&framed, limits)
        }
        Err(cause) => Found::without(cause),
    }
}

// How many bytes follow the frame, or 0 where they may.
#[inline]
fn bytes_after(whole: bool, bytes: &[u8], framed: &Framed<'_>) -> usize {
    if whole {
        bytes.len().saturating_sub(framed.length())
    } else {
        0
    }
}

// What it finds of a framed message.
fn over_framed<C: Call>(
    call: &C,
    framed: &Framed<'_>,
    limits: Limits,
    demands: Demands,
    out: &mut [C::Item],
) -> Found {
    let framed = *framed;
    let mut size = [0];
    match framed.one_segment(&mut size) {
        Some(view) => call.on_one(&view, framed.words(), limits, demands, out),
        None => over_segments(call, &framed, limits, demands, out),
    }
}

// The same for a message of several segments, which needs more space for its tables.
#[cold]
#[inline(never)]
fn over_segments<C: Call>(
    call: &C,
    framed: &Framed<'_>,
    limits: Limits,
    demands: Demands,
    out: &mut [C::Item],
) -> Found {
    let framed = *framed;
    let mut tables = SegmentTables::new();
    call.on(
        &framed.view(&mut tables),
        framed.words(),
        limits,
        demands,
        out,
    )
}
