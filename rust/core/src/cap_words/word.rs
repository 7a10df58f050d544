// crates/cap_words/src/word.rt without its contracts, by tools/erase: that text is proved, this one is only tested.
//! A word's bit fields, and the eight bytes that encode it.

use byteorder::{ByteOrder, LittleEndian};

/// The `count` bits of a word from bit `low` on, as a number; bit 0 is the lowest. The caller makes
/// sure that `low` and `count` sum to at most 64.
pub fn bits(word: u64, low: u32, count: u32) -> u64 {
    if count == 0 {
        return 0;
    }
    (word >> low) & (u64::MAX >> (64 - count))
}

/// The signed number in bits 2 to 31 of a word: the offset of a struct or list pointer, in words
/// (encoding: Structs, Lists).
pub fn signed_offset(word: u64) -> i64 {
    // With 1 << 31 added to the word, the offset is 1 << 29 more, and not negative. A comparison would
    // take longer: in a chain the load of the next word waits for the offset.
    bits(word.wrapping_add(1 << 31), 2, 30) as i64 - (1 << 29)
}

/// The word that eight bytes encode, the lowest byte first.
pub fn word_of(bytes: &[u8; 8]) -> u64 {
    LittleEndian::read_u64(bytes)
}

/// The eight bytes that encode a word, the lowest byte first.
pub fn bytes_of(word: u64) -> [u8; 8] {
    let mut bytes = [0; 8];
    LittleEndian::write_u64(&mut bytes, word);
    bytes
}
