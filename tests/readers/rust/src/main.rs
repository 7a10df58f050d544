//! Reads messages by the Rust crate `capnp`, and writes a line for each. `../read.cpp` says what FILE is, how each message
//! is read, and what the lines are.
//!
//!     read FILE
//!
//! What differs from it:
//! - The flat reader is `read_message_from_flat_slice`, and the stream reader `read_message`.
//! - The crate has no public reader of a struct or list of unknown type, so it goes through `capnp::private`.
//! - A null pointer isn't asked for a capability: the crate's answer is an error for every one.
//! - A capability comes from a table of the caller, which has none here. So the crate has to find the capability's number,
//!   and to miss it in that table.

mod walk;

use capnp::message::{Reader, ReaderOptions, ReaderSegments};
use capnp::{any_pointer, serialize, Result, Word};
use std::fs::File;
use std::io::{BufReader, BufWriter, Read, Write};
use std::process::exit;

/// What one of the readings finds.
fn found(reading: &str, message: &Reader<impl ReaderSegments>) -> Result<String> {
    Ok(match reading {
        "size" => message
            .get_root::<any_pointer::Reader>()?
            .target_size()?
            .cap_count
            .to_string(),
        "copy" => hexadecimal(Word::words_to_bytes(&message.canonicalize()?)),
        "all four" => {
            let walk = found("walk", message)?;
            found("upgraded", message)?;
            match found("size", message)?.as_str() {
                "0" => walk + " copy " + &found("copy", message)?,
                _ => walk,
            }
        }
        _ => walk::walk(message, reading == "upgraded")?,
    })
}

fn hexadecimal(bytes: &[u8]) -> String {
    let digit = |half: u8| char::from(b"0123456789abcdef"[usize::from(half)]);
    bytes
        .iter()
        .flat_map(|&byte| [digit(byte >> 4), digit(byte & 15)])
        .collect()
}

struct Message {
    limits: ReaderOptions,
    /// (words, since the flat reader asks for bytes that are aligned)
    words: Vec<Word>,
}

/// What one of the readings finds, by the flat reader or by the stream reader. An error is the line of the message.
fn read(message: &Message, stream: bool, reading: &str) -> std::result::Result<String, String> {
    let mut bytes = Word::words_to_bytes(&message.words);
    let mut limits = message.limits;
    if reading == "all four" {
        limits.traversal_limit_in_words = limits.traversal_limit_in_words.map(|words| 4 * words);
    }
    let found = if stream {
        serialize::read_message(&mut bytes, limits).and_then(|message| found(reading, &message))
    } else {
        serialize::read_message_from_flat_slice(&mut bytes, limits)
            .and_then(|message| found(reading, &message))
    };
    let reader = if stream { "stream" } else { "flat" };
    found.map_err(|error| format!("threw {reader} {reading}: {error}"))
}

/// The line of a message by one of the readers.
fn line_by(message: &Message, stream: bool) -> std::result::Result<String, String> {
    let walk = read(message, stream, "walk")?;
    let upgraded = read(message, stream, "upgraded")?;
    if upgraded != walk {
        return Err(format!("walk and upgraded differ: {walk} | {upgraded}"));
    }
    let caps = read(message, stream, "size")?;
    if !walk.ends_with(&format!(" caps {caps}")) {
        return Err("target_size counts other capabilities".into());
    }
    let line = if caps == "0" {
        format!("{walk} copy {}", read(message, stream, "copy")?)
    } else {
        walk
    };
    let again = read(message, stream, "all four")?;
    if again == line {
        Ok(line)
    } else {
        Err(format!("one reader and several differ: {line} | {again}"))
    }
}

fn line(message: &Message) -> std::result::Result<String, String> {
    let flat = line_by(message, false)?;
    let stream = line_by(message, true)?;
    if flat == stream {
        Ok(flat)
    } else {
        Err(format!("flat and stream differ: {flat} | {stream}"))
    }
}

/// The next message of the file, if there is one.
fn next(file: &mut impl Read) -> Option<Message> {
    let mut traversal = [0; 8];
    let mut numbers = [[0; 4]; 2];
    file.read_exact(&mut traversal).ok()?;
    numbers
        .iter_mut()
        .try_for_each(|number| file.read_exact(number))
        .ok()?;
    let [nesting, length] = numbers.map(u32::from_le_bytes);
    let mut limits = ReaderOptions::new();
    limits
        .traversal_limit_in_words(Some(u64::from_le_bytes(traversal) as usize))
        .nesting_limit(nesting as i32);
    let mut words = Word::allocate_zeroed_vec(length as usize / 8);
    file.read_exact(Word::words_to_bytes_mut(&mut words)).ok()?;
    Some(Message { limits, words })
}

fn main() {
    let mut file = match std::env::args().nth(1).map(File::open) {
        Some(Ok(file)) => BufReader::new(file),
        _ => exit(2),
    };
    let mut out = BufWriter::new(std::io::stdout().lock());
    while let Some(message) = next(&mut file) {
        let line = line(&message).unwrap_or_else(|failure| failure);
        writeln!(out, "{line}").expect("a line is written");
    }
    out.flush().expect("all lines are written");
}
