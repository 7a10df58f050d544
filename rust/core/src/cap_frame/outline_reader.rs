// crates/cap_frame/src/outline_reader.rt without its contracts, by tools/erase: that text is proved, this one is only tested.
//! Reading messages of which only the outline is kept.

use crate::cap_frame::fault::{frame_fault, FrameFault, SizeLimit};
use crate::cap_frame::outline::Outline;
use crate::cap_frame::skipping::skip_contents;
use crate::cap_frame::table::{next_table, sums_after, TableSums};
use crate::cap_words::WordSource;

/// Reads the next message of a stream and keeps its outline. `false` if the stream ends before the
/// message's first word (encoding: Serialization Over a Stream). Takes every word of the message,
/// as [`read_message`](crate::read_message) does. Allocates nothing.
///
/// # Errors
///
/// The errors, and the state of the source after an error, are those of
/// [`read_message`](crate::read_message), but for [`FrameFault::Memory`], which never comes. After
/// an error, and after `false`, the outline is as a new one.
pub fn read_outline<S: WordSource>(
    source: &mut S,
    limit: SizeLimit,
    outline: &mut Outline,
) -> Result<bool, FrameFault> {
    read_outline_noting(source, limit, outline, &mut None)
}

/// Does what [`read_outline`] does, and keeps what the table says in `table` if the message can't be
/// read.
///
/// # Errors
///
/// Those of [`read_outline`]. What `table` is after each error, and without one, is as
/// [`read_noting`](crate::read_noting) leaves it.
#[inline(always)]
pub fn read_outline_noting<S: WordSource>(
    source: &mut S,
    limit: SizeLimit,
    outline: &mut Outline,
    table: &mut Option<TableSums>,
) -> Result<bool, FrameFault> {
    outline.clear();
    match next_table(source, limit, &mut outline.sizes) {
        Ok(true) => {}
        Ok(false) => {
            outline.clear();
            return Ok(false);
        }
        Err(fault) => {
            *table = sums_after(fault, &outline.sizes);
            outline.clear();
            return Err(fault);
        }
    }
    match skip_contents(source, &outline.sizes) {
        Ok(root) => {
            outline.root = root;
            Ok(true)
        }
        Err(fault) => {
            let fault = frame_fault(fault);
            *table = sums_after(fault, &outline.sizes);
            outline.clear();
            Err(fault)
        }
    }
}
