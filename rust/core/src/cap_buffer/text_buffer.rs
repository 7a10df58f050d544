// crates/cap_buffer/src/text_buffer.rt without its contracts, by tools/erase: that text is proved, this one is only tested.
//! A text in a buffer of a fixed size.

use crate::cap_words::bytes_of;
use crate::rattle::itoa::write_digits;

/// The most decimal digits of a number of 64 bits.
pub const DIGITS: usize = 20;

/// The most decimal digits of a number of 32 bits.
pub const FEW_DIGITS: usize = 10;

/// How many bytes a hash has: 256 bits.
pub const HASH: usize = 32;

/// A text of at most `N` bytes. What is appended has to fit: nothing is cut. A caller may keep one
/// for many texts: clearing it leaves the old bytes in the buffer, so that it costs nothing.
pub struct TextBuffer<const N: usize> {
    bytes: [u8; N],
    len: usize,
}

impl<const N: usize> TextBuffer<N> {
    /// An empty text. Allocates nothing.
    pub fn new() -> Self {
        TextBuffer {
            bytes: [0; N],
            len: 0,
        }
    }

    /// The text.
    #[inline]
    pub fn text(&self) -> &[u8] {
        &self.bytes[..self.len]
    }

    /// How many bytes it has.
    #[inline]
    pub fn len(&self) -> usize {
        self.len
    }

    /// Whether it has no byte.
    #[inline]
    pub fn is_empty(&self) -> bool {
        self.len == 0
    }

    /// Removes all text.
    #[inline]
    pub fn clear(&mut self) {
        self.len = 0;
    }

    /// Appends text.
    #[inline(always)]
    pub fn push_text(&mut self, text: &[u8]) {
        let end = self.len + text.len();
        let bytes = &mut self.bytes[..];
        bytes[self.len..end].copy_from_slice(text);
        self.len = end;
    }

    /// Appends a number in decimal, of at most 20 digits.
    #[inline]
    pub fn push_number(&mut self, n: u64) {
        let end = self.len + digit_count(n);
        write_digits(n, &mut self.bytes, end);
        self.len = end;
    }

    /// Appends a name and then a number.
    #[inline(always)]
    pub fn push_named(&mut self, name: &[u8], number: u64) {
        self.push_text(name);
        self.push_number(number);
    }

    /// Appends a place as `SEGMENT:WORD`, both in decimal.
    pub fn push_place(&mut self, segment: u32, word: u64) {
        self.push_number(u64::from(segment));
        self.push_named(b":", word);
    }

    /// Appends the 16 hexadecimal digits of a word's bytes, the lowest byte first.
    #[inline]
    pub fn push_hex(&mut self, word: u64) {
        let end = self.len + 16;
        let bytes = &mut self.bytes[..];
        match crate::rattle::hex::encode_to_slice(bytes_of(word), &mut bytes[self.len..end]) {
            Ok(()) => self.len = end,
            Err(_) => unreachable!(),
        }
    }

    /// Appends the two hexadecimal digits of each byte of a hash.
    pub fn push_hash(&mut self, hash: &[u8; HASH]) {
        let end = self.len + 2 * HASH;
        let bytes = &mut self.bytes[..];
        match crate::rattle::hex::encode_to_slice(hash, &mut bytes[self.len..end]) {
            Ok(()) => self.len = end,
            Err(_) => unreachable!(),
        }
    }
}

/// How many decimal digits a number has.
#[inline]
fn digit_count(n: u64) -> usize {
    if n < 10 {
        return 1;
    }
    if n < 100 {
        return 2;
    }
    2 + digit_count(n / 100)
}
