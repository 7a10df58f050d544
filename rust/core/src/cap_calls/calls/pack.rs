// crates/cap_calls/src/calls/pack.rt without its contracts, by tools/erase: that text is proved, this one is only tested.
//! The call that packs between buffers.

use crate::cap_calls::answer::Answer;
use crate::cap_pack::pack_into;

/// Packs the words that all the bytes are, eight bytes a word, the lowest first, to the start of
/// `out` (encoding: Packing, 64-bit Words). It looks at no framing. Allocates nothing.
///
/// The first of these that applies is returned:
/// - [`Answer::Truncated`], if the bytes end inside a word; `required` is 0;
/// - [`Answer::BufferTooSmall`], if `out` is too small; `required` is then how many bytes the
///   packed text has;
/// - [`Answer::Good`], and `required` is how many bytes were written.
///
/// Without [`Answer::Good`], `out` is unchanged; with it, the bytes after the text are.
pub fn pack(bytes: &[u8], out: &mut [u8], required: &mut usize) -> Answer {
    pack_all(bytes, out, required)
}

// The same, without the clause `only`.
fn pack_all(bytes: &[u8], out: &mut [u8], required: &mut usize) -> Answer {
    *required = 0;
    if bytes.len() % 8 != 0 {
        return Answer::Truncated;
    }
    let size = out.len();
    let count = pack_into(bytes, out);
    *required = count;
    if size < count {
        return Answer::BufferTooSmall;
    }
    Answer::Good
}
