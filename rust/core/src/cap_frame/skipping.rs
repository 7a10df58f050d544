// crates/cap_frame/src/skipping.rt without its contracts, by tools/erase: that text is proved, this one is only tested.
//! Reading words of a message without keeping them.

use crate::cap_frame::table::{next_word, total};
use crate::cap_words::{SourceFault, WordSource};

// How many bytes of words are skipped at once.
const AT_ONCE: usize = 512;

// Takes the buffered words, as many as `buffer` holds, or the next word if none is buffered. Returns
// how many.
#[inline(always)]
fn skip_some<S: WordSource>(source: &mut S, buffer: &mut [u8]) -> Result<u64, SourceFault> {
    let count = source.ready(buffer);
    if count > 0 {
        return Ok(count as u64 / 8);
    }
    match next_word(source) {
        Ok(_) => Ok(1),
        Err(fault) => Err(fault),
    }
}

/// Reads `many` words, and keeps none.
pub(crate) fn skip_words<S: WordSource>(source: &mut S, many: u64) -> Result<(), SourceFault> {
    let mut buffer = [0; AT_ONCE];
    let mut done = 0;
    'words: while done < many {
        let most = (many - done).min(AT_ONCE as u64 / 8) as usize;
        match skip_some(source, &mut buffer[..8 * most]) {
            Ok(count) => done += count,
            Err(fault) => return Err(fault),
        }
    }
    Ok(())
}

/// Reads the words of segments of these sizes, and keeps the root word alone.
#[inline(always)]
pub(crate) fn skip_contents<S: WordSource>(
    source: &mut S,
    sizes: &[u32],
) -> Result<Option<u64>, SourceFault> {
    let words = total(sizes);
    if sizes[0] == 0 {
        skip_words(source, words)?;
        return Ok(None);
    }
    let root = next_word(source)?;
    skip_words(source, words - 1)?;
    Ok(Some(root))
}
