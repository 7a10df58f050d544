//! Reads messages through `capvet_capnp`, and writes a line for each. `../vetted.cpp` says what FILE is, how each message is
//! placed and read, and what the lines are.
//!
//!     vetted FILE

#[path = "../../rust/src/walk.rs"]
mod walk;

use capnp::message::{Reader, ReaderOptions};
use capnp::{any_pointer, serialize, Word};
use capvet::{Limits, Report, VetError};
use capvet_capnp::Vetted;
use std::fs::File;
use std::io::{BufReader, BufWriter, Read, Write};
use std::process::exit;

/// The lowest limits of a reader for so many readings of a message.
fn least(report: &Report, readings: u32) -> ReaderOptions {
    let mut options = ReaderOptions::new();
    options.traversal_limit_in_words(Some(report.reader_words(readings) as usize));
    options.nesting_limit(report.reader_nesting() as i32);
    options
}

/// What the readings of an accepted message find, under the limits for one reading, and then for four.
fn readings(vetted: &Vetted<'_>) -> capnp::Result<String> {
    let text = walk::walk(&Reader::new(vetted, least(vetted.report(), 1)), false)?;
    let message = Reader::new(vetted, least(vetted.report(), 4));
    if walk::walk(&message, false)? != text || walk::walk(&message, true)? != text {
        return Ok(format!("two readings differ: {text}"));
    }
    let size = message.get_root::<any_pointer::Reader>()?.target_size()?;
    if size.cap_count == 0 {
        message.canonicalize()?;
    }
    Ok(text)
}

/// The line of a message at this address.
fn line(bytes: &[u8]) -> String {
    let limits = Limits::DEFAULT.with_charge(65_536);
    let verdict = capvet_capnp::vetted(bytes, limits);
    if !agrees(bytes, limits, verdict.as_ref().map_err(ToString::to_string)) {
        return "an owner of the bytes or its segments have another verdict".into();
    }
    match verdict {
        Err(error) => match error.error() {
            VetError::Refused(refusal) => match refusal.path(bytes, limits) {
                Some(path) => format!("{error} path {path}"),
                None => error.to_string(),
            },
            _ => error.to_string(),
        },
        Ok(vetted) => readings(&vetted).unwrap_or_else(|error| format!("threw {error}")),
    }
}

/// Whether an owner of the same bytes, and the segments by the reader of `capnp`, have this verdict.
fn agrees(bytes: &[u8], limits: Limits, verdict: Result<&Vetted<'_>, String>) -> bool {
    let text = |it: Result<Vetted<'_>, capvet_capnp::Error>| match it {
        Ok(vetted) => Ok(*vetted.report()),
        Err(error) => Err(error.to_string()),
    };
    let verdict = verdict.map(|it| *it.report());
    let owned = text(capvet_capnp::vetted(bytes.to_vec(), limits));
    // (that reader takes fewer segments, and none that are longer than its limit)
    let mut options = ReaderOptions::new();
    options.traversal_limit_in_words(None);
    let separate = match serialize::read_message(bytes, options) {
        Ok(message) => text(capvet_capnp::vetted_segments(
            &message.into_segments(),
            limits,
        )),
        Err(_) => verdict.clone(),
    };
    verdict == owned && verdict == separate
}

/// The next message of the file, at an address that is a multiple of 8, and at one that isn't.
fn next(file: &mut impl Read) -> Option<[String; 2]> {
    let mut length = [0; 4];
    file.read_exact(&mut length).ok()?;
    let length = u32::from_le_bytes(length) as usize;
    let mut aligned = Word::allocate_zeroed_vec(length / 8);
    let mut shifted = Word::allocate_zeroed_vec(length / 8 + 1);
    let bytes = Word::words_to_bytes_mut(&mut aligned);
    file.read_exact(bytes).ok()?;
    let other = &mut Word::words_to_bytes_mut(&mut shifted)[1..=length];
    other.copy_from_slice(bytes);
    Some([line(bytes), line(other)])
}

fn main() {
    let mut file = match std::env::args().nth(1).map(File::open) {
        Some(Ok(file)) => BufReader::new(file),
        _ => exit(2),
    };
    let mut out = BufWriter::new(std::io::stdout().lock());
    while let Some([line, other]) = next(&mut file) {
        let line = if line == other {
            line
        } else {
            format!("the addresses differ: {line} | {other}")
        };
        writeln!(out, "{line}").expect("a line is written");
    }
    out.flush().expect("all lines are written");
}
