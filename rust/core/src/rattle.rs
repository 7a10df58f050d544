//! The items of Rattle's std that have another form than Rust's: what allocates takes the allocator and has a result. And digits by
//! the crates `hex` and `itoa`, in few instructions.

/// What a program allocates by.
pub mod alloc {
    /// The one allocator.
    #[derive(Clone, Copy, Debug)]
    pub struct Global;

    /// There was no memory.
    #[derive(Clone, Copy, Debug, PartialEq, Eq)]
    pub struct AllocError;
}

pub mod hex {
    use ::hex::FromHexError;

    /// Writes the two hexadecimal digits of each byte, as the crate does.
    #[inline(always)]
    pub fn encode_to_slice<T: AsRef<[u8]>>(
        input: T,
        output: &mut [u8],
    ) -> Result<(), FromHexError> {
        let bytes = input.as_ref();
        if let Ok(word) = <&[u8; 8]>::try_from(bytes) {
            if let Ok(digits) = <&mut [u8; 16]>::try_from(&mut *output) {
                write_word(word, digits);
                return Ok(());
            }
        }
        ::hex::encode_to_slice(bytes, output)
    }

    // A call of its own reads each byte from memory, which takes less than to shift it out of a word.
    #[inline(never)]
    fn write_word(word: &[u8; 8], digits: &mut [u8; 16]) {
        if ::hex::encode_to_slice(word, digits).is_err() {
            unreachable!()
        }
    }
}

pub mod itoa {
    /// Writes the digits of a number so that they end at `end`, and returns where they start.
    // Most numbers of a tree have one digit, of which the compiler makes a single store.
    #[inline(always)]
    pub fn write_digits(number: u64, out: &mut [u8], end: usize) -> usize {
        if number < 10 {
            write_any(number as u8, out, end)
        } else {
            write_more(number, out, end)
        }
    }

    // (the digits of a narrow type take fewer instructions, and the compiler sees when there are five or six)
    #[inline(never)]
    fn write_more(number: u64, out: &mut [u8], end: usize) -> usize {
        match number {
            0..=9_999 => write_any(number as u16, out, end),
            10_000..=99_999 => write_any(number as u32, out, end),
            100_000..=999_999 => write_any(number as u32, out, end),
            1_000_000..=0xffff_ffff => write_any(number as u32, out, end),
            _ => write_any(number, out, end),
        }
    }

    #[inline(always)]
    fn write_any<I: ::itoa::Integer>(number: I, out: &mut [u8], end: usize) -> usize {
        let mut digits = ::itoa::Buffer::new();
        let text = digits.format(number).as_bytes();
        let start = end - text.len();
        let place = &mut out[start..end];
        // (a slice of any length is copied by a call)
        match text.len() {
            2..=4 => copy_ends::<2>(text, place),
            5..=8 => copy_ends::<4>(text, place),
            _ => place.copy_from_slice(text),
        }
        start
    }

    // Copies the first and the last `N` bytes, which may overlap.
    #[inline(always)]
    fn copy_ends<const N: usize>(text: &[u8], place: &mut [u8]) {
        let last = text.len() - N;
        place[..N].copy_from_slice(&text[..N]);
        place[last..].copy_from_slice(&text[last..]);
    }
}

#[cfg(feature = "std")]
pub use vec::Vec;

#[cfg(feature = "std")]
mod vec {
    use super::alloc::{AllocError, Global};
    use core::fmt;
    use core::ops::{Deref, DerefMut};
    use core::slice::{Iter, IterMut};
    use std::vec::{IntoIter, Vec as Items};

    /// `std::vec::Vec`, of which each allocation may fail.
    #[derive(Clone, PartialEq, Eq)]
    pub struct Vec<T>(Items<T>);

    impl<T> Vec<T> {
        /// An empty vector. Allocates nothing.
        #[inline(always)]
        pub const fn new(_alloc: Global) -> Self {
            Self(Items::new())
        }

        /// An empty vector with capacity for so many items.
        #[inline(always)]
        pub fn with_capacity(_alloc: Global, capacity: usize) -> Result<Self, AllocError> {
            let mut items = Items::new();
            items.try_reserve_exact(capacity).map_err(|_| AllocError)?;
            Ok(Self(items))
        }

        /// So many times an item.
        #[inline]
        pub fn from_elem(_alloc: Global, item: T, count: usize) -> Result<Self, AllocError>
        where
            T: Copy,
        {
            let mut items = Items::new();
            items.try_reserve_exact(count).map_err(|_| AllocError)?;
            items.resize(count, item);
            Ok(Self(items))
        }

        #[inline(always)]
        fn reserve(&mut self, more: usize) -> Result<(), AllocError> {
            if more > self.0.capacity() - self.0.len() {
                self.0.try_reserve(more).map_err(|_| AllocError)?;
            }
            Ok(())
        }

        /// Appends an item.
        #[inline(always)]
        pub fn push(&mut self, item: T) -> Result<(), AllocError> {
            self.reserve(1)?;
            self.0.push(item);
            Ok(())
        }

        /// Appends an item, for which the capacity is enough.
        #[inline(always)]
        pub fn push_reserved(&mut self, item: T) {
            self.0.push(item);
        }

        /// Appends items.
        #[inline(always)]
        pub fn extend_from_slice(&mut self, items: &[T]) -> Result<(), AllocError>
        where
            T: Copy,
        {
            self.reserve(items.len())?;
            self.0.extend_from_slice(items);
            Ok(())
        }

        /// Cuts the vector, or appends an item, until it has this length.
        #[inline(always)]
        pub fn resize(&mut self, len: usize, item: T) -> Result<(), AllocError>
        where
            T: Copy,
        {
            self.reserve(len.saturating_sub(self.0.len()))?;
            self.0.resize(len, item);
            Ok(())
        }

        /// How many items it may have before it allocates.
        #[inline(always)]
        pub fn capacity(&self) -> usize {
            self.0.capacity()
        }

        /// Its items.
        #[inline(always)]
        pub fn as_slice(&self) -> &[T] {
            &self.0
        }

        /// Its items, to be changed.
        #[inline(always)]
        pub fn as_mut_slice(&mut self) -> &mut [T] {
            &mut self.0
        }
    }

    impl<T> Deref for Vec<T> {
        type Target = [T];

        #[inline(always)]
        fn deref(&self) -> &[T] {
            &self.0
        }
    }

    impl<T> DerefMut for Vec<T> {
        #[inline(always)]
        fn deref_mut(&mut self) -> &mut [T] {
            &mut self.0
        }
    }

    impl<T: fmt::Debug> fmt::Debug for Vec<T> {
        fn fmt(&self, f: &mut fmt::Formatter<'_>) -> fmt::Result {
            self.0.fmt(f)
        }
    }

    impl<'v, T> IntoIterator for &'v Vec<T> {
        type Item = &'v T;
        type IntoIter = Iter<'v, T>;

        fn into_iter(self) -> Iter<'v, T> {
            self.0.iter()
        }
    }

    impl<'v, T> IntoIterator for &'v mut Vec<T> {
        type Item = &'v mut T;
        type IntoIter = IterMut<'v, T>;

        fn into_iter(self) -> IterMut<'v, T> {
            self.0.iter_mut()
        }
    }

    impl<T> IntoIterator for Vec<T> {
        type Item = T;
        type IntoIter = IntoIter<T>;

        fn into_iter(self) -> IntoIter<T> {
            self.0.into_iter()
        }
    }
}
