// crates/cap_vet/src/nodes/view.rt without its contracts, by tools/erase: that text is proved, this one is only tested.
//! A view of a value in a message.

use crate::cap_frame::{words_before, ByteView, Segments};
use crate::cap_ptr::{element_bits, Place};
use crate::cap_spec::Kind;
use crate::cap_vet::nodes::found::Found;
use crate::cap_words::{bits, bytes_of};
use crate::rattle::alloc::AllocError;

/// A view of what a pointer word leads to, or of an element of a list of structs.
pub struct View<'m, M: Segments> {
    pub(crate) message: &'m M,
    pub(crate) found: Found,
}

impl<'m, M: Segments> Clone for View<'m, M> {
    fn clone(&self) -> View<'m, M> {
        *self
    }
}

impl<'m, M: Segments> Copy for View<'m, M> {}

impl<'m, M: Segments> View<'m, M> {
    /// What it is, with its sizes.
    #[inline(always)]
    pub fn kind(&self) -> Kind {
        self.found.kind
    }

    /// The words of a struct, an element or a list, the tag and surplus words of a list of structs
    /// included. `None` for null and a capability.
    pub fn place(&self) -> Option<Place> {
        match self.found.kind {
            Kind::Null | Kind::Cap { .. } => None,
            _ => Some(self.found.place),
        }
    }

    /// Where its [`place`](View::place) starts in its segment, in words. Null and a capability have no
    /// words, and the number has no meaning for them.
    #[inline(always)]
    pub fn start(&self) -> u32 {
        self.found.place.start
    }

    /// How many words of the message come before those of its [`place`](View::place), where the
    /// segments follow one another (encoding: Serialization Over a Stream). One step for each segment
    /// before its own. Null and a capability have no words, and the number has no meaning for them.
    #[inline(always)]
    pub fn words_before(&self) -> u64 {
        let place = self.found.place;
        words_before(self.message, place.segment) + u64::from(place.start)
    }

    /// Data word `i` of a struct, or word `i` of a list of values that aren't pointers, its bits past
    /// the last value as zeros (encoding: Structs, Lists). `None` past the last word, and of all else.
    pub fn data_word(&self, i: u32) -> Option<u64> {
        match self.found.kind {
            Kind::Struct { data_words, .. } => self.struct_word(i, data_words),
            Kind::Scalars { code, count } => self.values_word(i, code, count),
            _ => None,
        }
    }

    /// Byte `i` of a struct's data section, the lowest byte of each word first (encoding: Structs).
    /// `None` past the last byte, and of all but a struct.
    pub fn byte(&self, i: u32) -> Option<u8> {
        let data_words = if let Kind::Struct { data_words, .. } = self.found.kind {
            data_words
        } else {
            return None;
        };
        let word = self.struct_word(i / 8, data_words)?;
        Some(bytes_of(word)[(i % 8) as usize])
    }

    /// Bit `i` of a struct's data section, the lowest bit of each word first (encoding: Structs).
    /// `None` past the last bit, and of all but a struct.
    pub fn bit(&self, i: u32) -> Option<bool> {
        let data_words = if let Kind::Struct { data_words, .. } = self.found.kind {
            data_words
        } else {
            return None;
        };
        let word = self.struct_word(i / 64, data_words)?;
        Some(bits(word, i % 64, 1) == 1)
    }

    /// Element `i` of a list of values that aren't pointers, as a number without sign: 0 where the
    /// elements have no bits (encoding: Lists). `None` past the last element, and of all else.
    pub fn scalar(&self, i: u32) -> Option<u64> {
        let (code, count) = if let Kind::Scalars { code, count } = self.found.kind {
            (code, count)
        } else {
            return None;
        };
        if i >= count {
            return None;
        }
        Some(self.value(i, code, count))
    }

    /// How many elements a list has (encoding: Lists). `None` of all but a list.
    pub fn count(&self) -> Option<u32> {
        match self.found.kind {
            Kind::Scalars { count, .. }
            | Kind::Pointers { count }
            | Kind::Structs { count, .. } => Some(count),
            _ => None,
        }
    }

    // A word of its place.
    fn word_at(&self, i: u32) -> u64 {
        self.message
            .word(self.found.place.segment, self.found.place.start + i)
    }

    // One of its first `data_words` words.
    fn struct_word(&self, i: u32, data_words: u16) -> Option<u64> {
        if i >= u32::from(data_words) {
            return None;
        }
        Some(self.word_at(i))
    }

    // A word of its `count` values, which begin at its start.
    fn values_word(&self, i: u32, code: u8, count: u32) -> Option<u64> {
        let end = u64::from(element_bits(code)) * u64::from(count);
        let start = u64::from(i) * 64;
        if start >= end {
            return None;
        }
        let used = (end - start).min(64) as u32;
        Some(bits(self.word_at(i), 0, used))
    }

    // One of its `count` values, which begin at its start.
    fn value(&self, i: u32, code: u8, count: u32) -> u64 {
        let size = element_bits(code);
        if size == 0 {
            return 0;
        }
        let start = u64::from(i) * u64::from(size);
        let word = self.word_at((start / 64) as u32);
        bits(word, (start % 64) as u32, size)
    }
}

impl<'m, 'b> View<'m, ByteView<'b>> {
    /// The bytes of the words of its [`place`](View::place), unchanged. A tag, surplus words and
    /// the bits past the last value of a list are included. Empty for null and a capability.
    pub fn bytes(&self) -> &'b [u8] {
        match self.place() {
            Some(place) => self.message.bytes(place.segment, place.start, place.words),
            None => &[],
        }
    }
}
