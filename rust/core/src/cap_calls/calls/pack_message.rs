// crates/cap_calls/src/calls/pack_message.rt without its contracts, by tools/erase: that text is proved, this one is only tested.
//! The call that packs one message.

use crate::cap_calls::answer::Answer;
use crate::cap_calls::found::Found;
use crate::cap_calls::limits::CallLimits;
use crate::cap_calls::over::{over, Call};
use crate::cap_calls::report::CallReport;
use crate::cap_frame::{table_into, ByteView, Segments, TABLE_BYTES};
use crate::cap_pack::pack_into;
use crate::cap_vet::{Demands, Limits};

/// Packs the message that bytes are to the start of `out`: its table and each of its segments by
/// itself, with zero padding (encoding: Packing, Serialization Over a Stream). By their form the
/// bytes may start with the message. It checks no pointer. Allocates nothing.
///
/// The first of these that applies is returned:
/// - why there is no frame within the limits, or [`Answer::Trailing`]; `required` is 0;
/// - [`Answer::BufferTooSmall`], if `out` is too small; `required` is then how many bytes the
///   packed text has;
/// - [`Answer::Good`], and `required` is how many bytes were written.
///
/// Without [`Answer::Good`], `out` is unchanged; with it, the bytes after the text are. The report
/// is written whole: the length of the frame and how many segments it has, or why there is none.
pub fn pack_message(
    bytes: &[u8],
    limits: &CallLimits,
    out: &mut [u8],
    required: &mut usize,
    report: &mut CallReport,
) -> Answer {
    let whole = !limits.allows_trailing();
    let found = over(&Packing, whole, bytes, limits, out);
    *required = found.count;
    *report = found.report;
    found.answer
}

// The call on a message.
struct Packing;

impl Call for Packing {
    type Item = u8;

    #[inline(never)]
    fn on<'b>(
        &self,
        view: &ByteView<'b>,
        _words: u64,
        _limits: Limits,
        _demands: Demands,
        out: &mut [u8],
    ) -> Found {
        let mut table = [0; TABLE_BYTES];
        let length = table_into(view, &mut table);
        packed(&table[..length], view, out)
    }
}

// What is found of a message and the bytes of its table.
fn packed<'b>(table: &[u8], message: &ByteView<'b>, out: &mut [u8]) -> Found {
    let count = pack_into(table, &mut []) + segments_length(message);
    if out.len() < count {
        return Found {
            answer: Answer::BufferTooSmall,
            count,
            report: CallReport::none(),
        };
    }
    write_parts(table, message, &mut out[..count]);
    Found {
        answer: Answer::Good,
        count,
        report: CallReport::none(),
    }
}

// How many bytes the packed texts of all segments have.
fn segments_length<'b>(message: &ByteView<'b>) -> usize {
    let mut total = 0;
    'segments: for s in 0..message.count() {
        let bytes = if let Some(bytes) = message.segment(s) {
            bytes
        } else {
            // The segment exists.
            unreachable!()
        };
        total += pack_into(bytes, &mut []);
    }
    total
}

// Writes the packed texts of a table and of each segment into a buffer of just their length.
fn write_parts<'b>(table: &[u8], message: &ByteView<'b>, text: &mut [u8]) {
    let mut at = pack_into(table, text);
    'segments: for s in 0..message.count() {
        let bytes = if let Some(bytes) = message.segment(s) {
            bytes
        } else {
            // The segment exists.
            unreachable!()
        };
        at += pack_into(bytes, &mut text[at..]);
    }
}
