// crates/cap_pack/src/buffered.rt without its contracts, by tools/erase: that text is proved, this one is only tested.
//! Unpacking buffered bytes, many words at once (encoding: Packing).

#[cfg(feature = "std")]
use crate::rattle::Vec;

use super::head::{head_len, head_of, LONGEST_HEAD};
use crate::cap_words::bytes_of;

// The bytes of a few words, which are written at once if the buffer has space. A run of no more of
// them is no call then.
const FEW: usize = 32;

/// How many of the buffered bytes were unpacked, and what is left of the run after them.
#[derive(Clone, Copy)]
pub(crate) struct Unpacked {
    /// how many bytes were read
    pub(crate) read: usize,
    /// how many bytes were written, eight for each word
    pub(crate) written: usize,
    /// how many zero words of the run are still to be given
    pub(crate) zeros: u8,
    /// how many words as they are of the run are still to be read
    pub(crate) plain: u8,
}

// Writes `count` zero words, or as many as `out` has space for, and returns how many.
#[inline(always)]
fn zero_words(count: u8, out: &mut [u8]) -> u8 {
    let words = (count as usize).min(out.len() / 8);
    if 8 * words <= FEW && FEW <= out.len() {
        out[..FEW].copy_from_slice(&[0; FEW]);
        return words as u8;
    }
    out[..8 * words].fill(0);
    words as u8
}

// Copies `count` literal words, or as many as `from` has and `out` has space for. Returns how many.
#[inline(always)]
fn plain_words(count: u8, from: &[u8], out: &mut [u8]) -> u8 {
    let words = (count as usize).min(from.len() / 8).min(out.len() / 8);
    if 8 * words <= FEW && FEW <= from.len() && FEW <= out.len() {
        out[..FEW].copy_from_slice(&from[..FEW]);
        return words as u8;
    }
    out[..8 * words].copy_from_slice(&from[..8 * words]);
    words as u8
}

/// Appends `count` literal words, or as many as `from` has and the vector has capacity for, in no
/// more than `most` bytes. Returns how many.
#[cfg(feature = "std")]
pub(crate) fn append_words(count: u8, from: &[u8], out: &mut Vec<u8>, most: usize) -> u8 {
    let capacity = most.min(out.capacity() - out.len());
    let words = (count as usize).min(from.len() / 8).min(capacity / 8);
    // the capacity suffices, so nothing is allocated
    out.extend_from_slice(&from[..8 * words]).unwrap();
    words as u8
}

// What is left of a run, as far as there are bytes for it and `out` has space.
#[inline(always)]
fn run(from: &[u8], out: &mut [u8], zeros: u8, plain: u8) -> Unpacked {
    let given = zero_words(zeros, out);
    if given < zeros {
        return Unpacked {
            read: 0,
            written: 8 * given as usize,
            zeros: zeros - given,
            plain,
        };
    }
    let copied = plain_words(plain, from, &mut out[8 * given as usize..]);
    Unpacked {
        read: 8 * copied as usize,
        written: 8 * (given as usize + copied as usize),
        zeros: 0,
        plain: plain - copied,
    }
}

// The head of a group, with its first word.
#[inline(always)]
fn first(from: &[u8], out: &mut [u8]) -> Unpacked {
    let tag = from[0];
    let mut buffer = [0; 9];
    buffer.copy_from_slice(&from[1..10]);
    let head = head_of(tag, &buffer);
    out[..8].copy_from_slice(&bytes_of(head.word));
    Unpacked {
        read: 1 + head_len(tag),
        written: 8,
        zeros: head.zeros,
        plain: head.plain,
    }
}

// A group, as far as there are bytes for its run and `out` has space.
#[inline(always)]
fn group(from: &[u8], out: &mut [u8]) -> Unpacked {
    let head = first(from, out);
    if head.zeros == 0 && head.plain == 0 {
        return head;
    }
    let more = run(
        &from[head.read..],
        &mut out[head.written..],
        head.zeros,
        head.plain,
    );
    Unpacked {
        read: head.read + more.read,
        written: head.written + more.written,
        zeros: more.zeros,
        plain: more.plain,
    }
}

/// Unpacks buffered bytes as far as `out` has space. Before them it writes `zeros` zero words that
/// are still to be given, and reads `plain` literal words that are still to be read. It stops
/// before a group that begins less than ten bytes before the end of these bytes.
pub(crate) fn unpack(from: &[u8], out: &mut [u8], zeros: u8, plain: u8) -> Unpacked {
    let mut done = run(from, out, zeros, plain);
    while done.zeros == 0
        && done.plain == 0
        && from.len() - done.read >= LONGEST_HEAD
        && out.len() - done.written >= 8
    {
        let next = group(&from[done.read..], &mut out[done.written..]);
        done = Unpacked {
            read: done.read + next.read,
            written: done.written + next.written,
            zeros: next.zeros,
            plain: next.plain,
        };
    }
    done
}
