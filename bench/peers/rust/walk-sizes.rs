//! A full walk by the public calls of `capnp`, of any version: the size of all objects.

use capnp::message::{Reader, ReaderSegments};
use capnp::{any_pointer, Result};

/// Goes through every object of a message, and counts their words.
pub fn words(message: &Reader<impl ReaderSegments>) -> Result<u64> {
    Ok(message
        .get_root::<any_pointer::Reader>()?
        .target_size()?
        .word_count)
}
