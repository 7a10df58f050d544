// crates/cap_frame/src/lib.rt without its contracts, by tools/erase: that text is proved, this one is only tested.
//! Framed messages: the ways to hold one, reading them from a source of words or before other bytes,
//! and writing them to a sink.

mod byte_message;
#[cfg(feature = "std")]
mod byte_reader;
mod fault;
mod framed;
mod front;
mod lengths;
mod message;
mod outline;
mod outline_reader;
#[cfg(feature = "std")]
mod reader;
mod segment_tables;
mod segments;
mod skipping;
mod table;
mod writer;

#[cfg(feature = "std")]
pub use byte_message::ByteMessage;
pub use byte_message::{words_at, ByteView};
#[cfg(feature = "std")]
pub use byte_reader::{read_byte_message, read_into, read_noting};
pub use fault::{FrameFault, FrontFault, SizeLimit, MOST_WORDS};
pub use framed::Framed;
pub use front::front_of;
pub use lengths::{message_words, words_before};
pub use message::OneSegment;
#[cfg(feature = "std")]
pub use message::WordMessage;
pub use outline::Outline;
pub use outline_reader::{read_outline, read_outline_noting};
#[cfg(feature = "std")]
pub use reader::read_message;
pub use segment_tables::SegmentTables;
pub use segments::Segments;
pub use table::TableSums;
pub use writer::{table_into, write_message, TABLE_BYTES};
