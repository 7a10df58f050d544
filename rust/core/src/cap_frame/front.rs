// crates/cap_frame/src/front.rt without its contracts, by tools/erase: that text is proved, this one is only tested.
//! Finding a framed message at the start of bytes.

use crate::cap_frame::fault::{FrontFault, SizeLimit};
use crate::cap_frame::framed::Framed;
use byteorder::{ByteOrder, LittleEndian};

// How many words `count` segments have together, by the table at the start of bytes.
fn total_given(bytes: &[u8], count: u32) -> u64 {
    let mut words = 0u64;
    'sizes: for s in 0..count as usize {
        words += u64::from(LittleEndian::read_u32(&bytes[4 + 4 * s..]));
    }
    words
}

// Reads the table at the start of bytes, and looks whether its message is whole.
fn read_front(bytes: &[u8], limit: SizeLimit) -> Result<Option<Framed<'_>>, FrontFault> {
    if bytes.is_empty() {
        return Ok(None);
    }
    if bytes.len() < 8 {
        return Err(FrontFault::Truncated { needed: 8 });
    }
    let last = LittleEndian::read_u32(bytes);
    if last >= 512 {
        return Err(FrontFault::TooManySegments {
            count: u64::from(last) + 1,
        });
    }
    let count = last + 1;
    let table = 8 * (u64::from(count) / 2 + 1);
    if (bytes.len() as u64) < table {
        return Err(FrontFault::Truncated { needed: table });
    }
    let words = total_given(bytes, count);
    if words > limit.words() {
        return Err(FrontFault::TooLarge { words });
    }
    let needed = table + 8 * words;
    if (bytes.len() as u64) < needed {
        return Err(FrontFault::Truncated { needed });
    }
    Ok(Some(Framed {
        bytes,
        count,
        words,
    }))
}

/// The framed message at the start of bytes, or `None` if there are no bytes. Allocates nothing,
/// and looks at nothing after the message (encoding: Serialization Over a Stream).
///
/// # Errors
///
/// In the order in which they are looked for:
///
/// - [`FrontFault::Truncated`]: there are fewer than 8 bytes.
/// - [`FrontFault::TooManySegments`]: the first word gives more than 512 segments.
/// - [`FrontFault::Truncated`]: the table isn't whole.
/// - [`FrontFault::TooLarge`]: the sizes sum to more words than the limit.
/// - [`FrontFault::Truncated`]: the contents aren't whole.
pub fn front_of(bytes: &[u8], limit: SizeLimit) -> Result<Option<Framed<'_>>, FrontFault> {
    read_front(bytes, limit)
}
