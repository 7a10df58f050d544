// crates/cap_words/src/lib.rt without its contracts, by tools/erase: that text is proved, this one is only tested.
//! Bytes and words: the fields of a word, the ends that bytes come in and go out by, and the
//! sources and sinks of words that use them.

#[cfg(feature = "std")]
mod buffered_in;
mod byte_io;
#[cfg(feature = "std")]
mod from_read;
#[cfg(feature = "std")]
mod from_write;
mod plain_sink;
mod plain_words;
mod sinks;
mod slice_in;
mod sources;
mod transfer;
#[cfg(feature = "std")]
mod vec_out;
mod word;

#[cfg(feature = "std")]
pub use buffered_in::BufferedIn;
pub use byte_io::{ByteIn, ByteOut, InFault, OutFault, Phase};
#[cfg(feature = "std")]
pub use from_read::FromRead;
#[cfg(feature = "std")]
pub use from_write::FromWrite;
pub use plain_sink::PlainSink;
pub use plain_words::PlainWords;
pub use sinks::{SinkFault, WordSink};
pub use slice_in::SliceIn;
pub use sources::{SourceFault, WordSource};
pub use transfer::{fill, write_all, Counted, Filled};
#[cfg(feature = "std")]
pub use vec_out::VecOut;
pub use word::{bits, bytes_of, signed_offset, word_of};
