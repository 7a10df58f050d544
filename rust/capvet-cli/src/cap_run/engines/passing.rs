// crates/cap_run/src/engines/passing.rt without its contracts, by tools/erase: that text is proved, this one is only tested.
//! Writing the frame of a message to an output, plain or packed.

use capvet_core::cap_frame::{table_into, ByteView, Segments, TABLE_BYTES};
use capvet_core::cap_pack::{pack_into, pack_part, PART_BYTES};
use capvet_core::cap_words::{write_all, ByteOut, OutFault};

/// How many bytes the packed text of the longest table has at most: ten for each word.
const PACKED_TABLE_BYTES: usize = TABLE_BYTES / 8 * 10;

/// The buffers that the parts of a frame are written from. They may hold anything.
pub(crate) struct FrameBuffers {
    table: [u8; TABLE_BYTES],
    packed_table: [u8; PACKED_TABLE_BYTES],
    part: [u8; PART_BYTES],
}

impl FrameBuffers {
    /// Buffers that hold zeros.
    pub(crate) fn new() -> FrameBuffers {
        FrameBuffers {
            table: [0; TABLE_BYTES],
            packed_table: [0; PACKED_TABLE_BYTES],
            part: [0; PART_BYTES],
        }
    }
}

/// Writes bytes, at least one.
fn write_first<O: ByteOut>(out: &mut O, bytes: &[u8]) -> Result<(), OutFault> {
    write_all(out, bytes)
}

/// Writes bytes after a text that isn't empty.
pub(crate) fn write_more<O: ByteOut>(out: &mut O, bytes: &[u8]) -> Result<(), OutFault> {
    write_all(out, bytes)
}

/// Writes the table: how many segments there are, their sizes, and zero padding (encoding:
/// Serialization Over a Stream).
fn write_table<O: ByteOut, M: Segments>(
    out: &mut O,
    message: &M,
    table: &mut [u8; TABLE_BYTES],
) -> Result<(), OutFault> {
    let count = table_into(message, table);
    write_first(out, &table[..count])
}

/// Writes the bytes of all segments, each in one piece, after a text that isn't empty.
fn write_contents<'b, O: ByteOut>(out: &mut O, message: &ByteView<'b>) -> Result<(), OutFault> {
    'segments: for s in 0..message.count() {
        let bytes = if let Some(bytes) = message.segment(s) {
            bytes
        } else {
            // The segment exists.
            unreachable!()
        };
        if let Err(fault) = write_more(out, bytes) {
            return Err(fault);
        }
    }
    Ok(())
}

/// Writes the frame of a message, with zero padding: the table, and then each segment in one piece
/// (encoding: Serialization Over a Stream).
///
/// # Errors
///
/// The error of the output, which took a prefix of the frame.
pub(crate) fn write_frame<'b, O: ByteOut>(
    out: &mut O,
    message: &ByteView<'b>,
    buffers: &mut FrameBuffers,
) -> Result<(), OutFault> {
    match write_table(out, message, &mut buffers.table) {
        Ok(()) => write_contents(out, message),
        Err(fault) => Err(fault),
    }
}

/// Writes the packed text of the table.
fn write_packed_table<O: ByteOut, M: Segments>(
    out: &mut O,
    message: &M,
    table: &mut [u8; TABLE_BYTES],
    text: &mut [u8; PACKED_TABLE_BYTES],
) -> Result<(), OutFault> {
    let count = table_into(message, table);
    let length = pack_into(&table[..count], text);
    write_first(out, &text[..length])
}

/// Writes the packed text of the words of some bytes after a text that isn't empty. The buffer may
/// hold anything.
fn write_packed_more<O: ByteOut>(
    out: &mut O,
    bytes: &[u8],
    part: &mut [u8; PART_BYTES],
) -> Result<(), OutFault> {
    let mut done = 0;
    'parts: while bytes.len() - done >= 8 {
        let packed = pack_part(&bytes[done..], part);
        if let Err(fault) = write_more(out, &part[..packed.length]) {
            return Err(fault);
        }
        done += packed.taken;
    }
    Ok(())
}

/// Writes the packed text of each segment after a text that isn't empty.
fn write_packed_contents<'b, O: ByteOut>(
    out: &mut O,
    message: &ByteView<'b>,
    part: &mut [u8; PART_BYTES],
) -> Result<(), OutFault> {
    'texts: for s in 0..message.count() {
        let bytes = if let Some(bytes) = message.segment(s) {
            bytes
        } else {
            // The segment exists.
            unreachable!()
        };
        if let Err(fault) = write_packed_more(out, bytes, part) {
            return Err(fault);
        }
    }
    Ok(())
}

/// Writes the packed frame of a message, with zero padding: the table and each segment are packed by
/// themselves (encoding: Packing, Serialization Over a Stream).
///
/// # Errors
///
/// The error of the output, which took a prefix of the packed frame.
pub(crate) fn write_packed_frame<'b, O: ByteOut>(
    out: &mut O,
    message: &ByteView<'b>,
    buffers: &mut FrameBuffers,
) -> Result<(), OutFault> {
    let (table, text) = (&mut buffers.table, &mut buffers.packed_table);
    match write_packed_table(out, message, table, text) {
        Ok(()) => write_packed_contents(out, message, &mut buffers.part),
        Err(fault) => Err(fault),
    }
}
