// crates/cap_run/src/engines/reading.rt without its contracts, by tools/erase: that text is proved, this one is only tested.
//! Reading the next message of a stream or its end, and what is known of a message that can't be
//! read.

use crate::cap_text::{Cause, StreamBreak};
use capvet_core::cap_frame::{
    read_noting, read_outline_noting, ByteMessage, FrameFault, Outline, SizeLimit, TableSums,
};
use capvet_core::cap_words::WordSource;
use capvet_core::rattle::alloc::Global;

/// What is known before a message can't be read: whether the input is packed.
pub(crate) fn no_break(packed: bool) -> StreamBreak {
    StreamBreak {
        start: 0,
        packed,
        limit: 0,
        table: None,
        is_cut: false,
    }
}

/// Whether the input ends inside a word, if the source ended inside a message. Otherwise it is
/// `false`. The source stays as it is.
fn is_cut_after<S: WordSource>(source: &mut S, fault: FrameFault) -> bool {
    match fault {
        FrameFault::Truncated { byte: _ } => match source.next() {
            Ok(_) => false,
            Err(_) => true,
        },
        _ => false,
    }
}

/// What is known of a message that can't be read.
fn break_at(
    packed: bool,
    limit: SizeLimit,
    start: u64,
    table: Option<TableSums>,
    is_cut: bool,
) -> StreamBreak {
    StreamBreak {
        start,
        packed,
        limit: limit.words(),
        table,
        is_cut,
    }
}

/// Reads the next message. `false` if the stream ends before it. If it can't be read, `at` is what is
/// known of it.
#[inline(always)]
pub(crate) fn read_next<S: WordSource>(
    alloc: Global,
    source: &mut S,
    limit: SizeLimit,
    message: &mut ByteMessage,
    at: &mut StreamBreak,
) -> Result<bool, FrameFault> {
    let start = source.position();
    let mut table = None;
    match read_noting(alloc, source, limit, message, &mut table) {
        Ok(found) => Ok(found),
        Err(fault) => {
            let is_cut = is_cut_after(source, fault);
            *at = break_at(at.packed, limit, start, table, is_cut);
            Err(fault)
        }
    }
}

/// Checks that the stream ends here. One more message is [`Cause::TooManyMessages`]. If it can't be
/// read, `at` is what is known of it.
pub(crate) fn end_stream<S: WordSource>(
    source: &mut S,
    limit: SizeLimit,
    at: &mut StreamBreak,
) -> Result<(), Cause> {
    let start = source.position();
    let mut table = None;
    match read_outline_noting(source, limit, &mut Outline::new(), &mut table) {
        Ok(true) => Err(Cause::TooManyMessages),
        Ok(false) => Ok(()),
        Err(fault) => {
            let is_cut = is_cut_after(source, fault);
            *at = break_at(at.packed, limit, start, table, is_cut);
            Err(Cause::Frame(fault))
        }
    }
}
