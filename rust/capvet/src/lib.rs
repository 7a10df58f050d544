// (a test of it would need `capvet_capnp`, which needs this crate: tests/bindings/adapters.py builds it)
#![cfg_attr(not(doctest), doc = include_str!("../README.md"))]
//!
//! # What is accepted
//!
//! A message is accepted exactly if its root denotes a finite tree that is inside the message's segments and within the
//! [`Limits`], and it also is:
//!
//! - strict: without four forms that common readers reject, unless [`Limits::allow_nonstrict`] is set;
//! - unamplified: a traversal reads at most 4,096 words more than the segments have, unless [`Limits::allow_amplified`] is set;
//! - exclusive, if [`Limits::exclusive`] is set: no word is used twice.
//!
//! What the bytes are is said by the call: one message and nothing else ([`vet`]), bytes that begin with one ([`vet_prefix`]),
//! words without a table (`vet_words`), or separate segments (`vet_segments`).
//!
//! No call keeps anything for a later one, and each may be called from any thread. There is no `unsafe`.
//!
//! # What is proved
//!
//! The code that decides is written and proved in another language, Rattle, which is Rust with contracts. The crate
//! `capvet-core` is that text without its contracts. So it is not proved itself: rustc compiles it, and it is tested to
//! return what the proved build returns. This crate gives its calls the types below.
//!
//! # Bytes that change
//!
//! A verdict is about the bytes as they were during the call, and a [`Message`] borrows them: a `&[u8]` promises that nobody
//! writes them. If a peer can write the memory or the file, take a copy, vet the copy and read the copy.
//!
//! # Words and places
//!
//! A word is eight bytes. A place is the number of a segment and a word in it, both from 0. The format is that of Cap'n
//! Proto's public encoding specification; a message is framed as in a stream. Numbers that a peer claims are `u64`, and lengths
//! of what is in memory are `usize`.
//!
//! # Errors
//!
//! The text of an error includes its cause, so its `source()` is `None`. Texts are the lines of the program `capvet`,
//! where it has one. Enums and structs may get more variants and fields: match them with `..` and a last arm.
//!
//! The operator `?` leads from each error to those that have it as a variant, and from each to [`std::io::Error`]. Its kind is
//! then `UnexpectedEof` for bytes that end too early, `InvalidInput` for a call that is wrong, and else `InvalidData`.
//!
//! # Features
//!
//! The feature `std` is on by default. It has the errors as `std::error::Error`, [`read_messages`] and [`VettedReader`]. Without
//! it the crate is `no_std`. The feature `alloc`, which is part of `std`, has what owns memory: [`MessageBuf`], [`Feed`],
//! [`Path`], [`Limits::with_exclusive`], `to_json`, and the calls that return a `Vec`. No other call allocates.

#![cfg_attr(not(feature = "std"), no_std)]
#![forbid(unsafe_code)]
#![deny(missing_docs, missing_debug_implementations)]

#[cfg(target_pointer_width = "16")]
compile_error!("a message may have more bytes than an address of 16 bits counts");

#[cfg(feature = "alloc")]
extern crate alloc;

mod calls;
mod canonical;
mod conversions;
mod difference;
mod explanation;
#[cfg(feature = "alloc")]
mod feed;
#[cfg(feature = "alloc")]
mod json;
mod limits;
mod message;
#[cfg(feature = "alloc")]
mod message_buf;
mod node;
mod nodes;
mod packing;
mod path;
#[cfg(feature = "std")]
mod reading;
mod refusal;
mod report;
mod segments;
#[cfg(all(test, feature = "std"))]
mod tests;
mod unpacking;

pub use canonical::{is_canonical_words, CanonicalError, HasCapability};
pub use difference::{Difference, DifferenceReason};
pub use explanation::Explanation;
#[cfg(feature = "alloc")]
pub use feed::Feed;
pub use limits::{Limits, LimitsError};
pub use message::{frame_length, messages, vet, vet_exclusive, vet_prefix};
pub use message::{ExclusiveError, Message, Messages};
#[cfg(feature = "alloc")]
pub use message_buf::{vet_segments, vet_words, MessageBuf, NotAccepted};
pub use node::{peek, Elements, Kind, Node};
pub use nodes::{peek_range, Nodes, PeekNodes};
#[cfg(feature = "alloc")]
pub use packing::{pack_message, pack_words, unpack_words};
pub use packing::{pack_message_into, pack_words_into, unpack_words_into, PackError};
pub use path::Step;
#[cfg(feature = "alloc")]
pub use path::{Path, PathError};
#[cfg(feature = "std")]
pub use reading::{read_messages, read_packed_messages, ReadError, ReadMessages, VettedReader};
pub use refusal::{FrameError, Reason, Refusal, UnknownReason, VetError};
pub use report::{Pointer, Position, Report};
pub use segments::{segments, Segments};
pub use unpacking::{unpack_message, UnpackMessageError, Unpacking};
