//! What C passes, as Rust has it.
//!
//! A pointer to a single struct or number is a reference in the signature of a call. The header forbids NULL for it, and asks for
//! the usual alignment. It also lets nothing that is filled in overlap another argument. A struct that is only filled in may be
//! uninitialised before, so it is a `MaybeUninit`, and each call first writes zeros there. A buffer is a pointer and a length, which
//! the functions here join.

use capvet_core::cap_calls::{CallNode, CallReport};
use core::slice;

/// A report with nothing in it.
pub(crate) const NO_REPORT: CallReport = CallReport {
    length: 0,
    input_required: 0,
    detail: 0,
    charge: 0,
    pointers: 0,
    capabilities: 0,
    depth: 0,
    segments: 0,
    segment: 0,
    word: 0,
    words: 0,
    reserved: [0; 6],
};

/// A node with nothing in it.
pub(crate) const NO_NODE: CallNode = CallNode {
    kind: 0,
    element: 0,
    count: 0,
    data_words: 0,
    pointers: 0,
    capability: 0,
    offset: 0,
    length: 0,
    reserved: [0; 2],
};

/// A buffer that C passes to be read. It may be NULL if it has no elements.
///
/// # Safety
///
/// If `length` isn't 0, there are `length` elements at `start`, aligned as their type is, at most `isize::MAX` bytes of one
/// allocation. Nobody writes them while the result is used.
pub(crate) unsafe fn input<'a, T>(start: *const T, length: usize) -> &'a [T] {
    if length == 0 {
        return &[];
    }
    // SAFETY: `start` isn't NULL, since there are elements. The caller answers for the rest, which is what this function asks.
    unsafe { slice::from_raw_parts(start, length) }
}

/// A buffer that C passes to be filled in. It may be NULL if it has no elements.
///
/// # Safety
///
/// As for [`input`], and nobody else reads or writes the elements while the result is used. Every content of the memory is a value
/// of `T`: a number, or a struct of numbers without padding. C may have written nothing there yet. The compiler of this crate sees
/// no allocation of C, so such an element is some number to it.
pub(crate) unsafe fn output<'a, T>(start: *mut T, size: usize) -> &'a mut [T] {
    if size == 0 {
        return &mut [];
    }
    // SAFETY: `start` isn't NULL, since there are elements. The caller answers for the rest, which is what this function asks.
    unsafe { slice::from_raw_parts_mut(start, size) }
}
