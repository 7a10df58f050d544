//! A peer that the benchmark times beside capvet: the same jobs by the Rust crate `capnp`.
//!
//!     peer walk|canon|check|copy|pack|unpack [--packed] [--words N] FILE
//!
//!     walk    reads every node of each message, and writes a line for it
//!     canon   writes the canonical copy of each message, as a message of one segment
//!     check   writes for each message whether it is canonical
//!     copy    writes the messages as they came
//!     pack    writes the messages packed
//!     unpack  reads packed messages and writes them plain
//!
//! With --packed the messages are read packed. N is the crate's traversal limit, in words.
//! Status: 0 all went well, 1 a message was refused or isn't canonical, 2 the command line is wrong,
//! 3 FILE doesn't open.
//!
//! What differs from capvet's work:
//! - walk counts words alone: neither depth nor pointers, and it doesn't report where a message goes wrong. The
//!   crate has no public reader of a struct or list of unknown type, so it goes through `capnp::private`. Where
//!   that lacks the calls, it is `target_size`, which goes through all objects too and makes no readers.
//! - canon doesn't vet the message: it counts the words below the root, for the size of the copy, and copies.
//!   Both count against the traversal limit, so N has to be more than twice as large.
//! - check stops at the first difference, and never looks at what comes after it.
//! - copy follows no pointer, so it refuses no message; `capvet filter` vets each message before it writes it.
//! - pack makes a deep copy of each message, since the crate packs nothing but what was built with it. The
//!   objects of the copy may be in another order, and in one segment.
//! - pack and unpack need framed messages, and take one at a time; capvet copies words, whatever they mean.

use capnp::message::{Builder, HeapAllocator, Reader, ReaderOptions, ReaderSegments, SegmentArray};
use capnp::serialize::{self, OwnedSegments};
use capnp::{any_pointer, serialize_packed, Result};
use std::fs::File;
use std::io::{BufReader, BufWriter, Write};
use std::process::exit;

mod walk;

const BUFFER_BYTES: usize = 65536;

/// A builder whose first segment is large enough for the whole message.
fn builder(root: &any_pointer::Reader) -> Result<Builder<HeapAllocator>> {
    let words = root.target_size()?.word_count as u32 + 1;
    let memory = HeapAllocator::new().first_segment_words(words);
    Ok(Builder::new(memory))
}

fn write_canonical(message: &Reader<impl ReaderSegments>, out: &mut impl Write) -> Result<()> {
    let root: any_pointer::Reader = message.get_root()?;
    let mut copy = builder(&root)?;
    copy.set_root_canonical(root)?;
    serialize::write_message_segments(out, &SegmentArray::new(&copy.get_segments_for_output()))
}

fn write_packed(message: &Reader<impl ReaderSegments>, out: &mut impl Write) -> Result<()> {
    let root: any_pointer::Reader = message.get_root()?;
    let mut copy = builder(&root)?;
    copy.set_root(root)?;
    serialize_packed::write_message(out, &copy)
}

/// Does a job on one message. False where the message isn't canonical.
fn work(
    job: &str,
    number: u64,
    message: Reader<OwnedSegments>,
    out: &mut impl Write,
) -> Result<bool> {
    match job {
        "walk" => {
            let words = walk::words(&message)?;
            writeln!(out, "message {number}: words {words}")?;
        }
        "check" => {
            let good = message.is_canonical()?;
            let answer = if good { "canonical" } else { "not canonical" };
            writeln!(out, "message {number}: {answer}")?;
            return Ok(good);
        }
        "canon" => write_canonical(&message, out)?,
        "pack" => write_packed(&message, out)?,
        _ => serialize::write_message_segments(out, &message.into_segments())?,
    }
    Ok(true)
}

/// Does a job on every message of a file. False where one isn't canonical.
fn run(job: &str, packed: bool, limits: ReaderOptions, file: File) -> Result<bool> {
    let mut input = BufReader::with_capacity(BUFFER_BYTES, file);
    let mut out = BufWriter::with_capacity(BUFFER_BYTES, std::io::stdout().lock());
    let mut good = true;
    for number in 0.. {
        let message = if packed {
            serialize_packed::try_read_message(&mut input, limits)?
        } else {
            serialize::try_read_message(&mut input, limits)?
        };
        let Some(message) = message else { break };
        good &= work(job, number, message, &mut out)?;
    }
    out.flush()?;
    Ok(good)
}

fn usage() -> ! {
    eprintln!("usage: peer walk|canon|check|copy|pack|unpack [--packed] [--words N] FILE");
    exit(2);
}

fn main() {
    let (mut job, mut name) = (String::new(), String::new());
    let mut packed = false;
    let mut limits = ReaderOptions::new();
    let mut arguments = std::env::args().skip(1);
    while let Some(argument) = arguments.next() {
        match argument.as_str() {
            "--packed" => packed = true,
            "--words" => {
                let words = arguments.next().and_then(|it| it.parse().ok());
                limits.traversal_limit_in_words(Some(words.unwrap_or_else(|| usage())));
            }
            _ if job.is_empty() => job = argument,
            _ => name = argument,
        }
    }
    if !["walk", "canon", "check", "copy", "pack", "unpack"].contains(&job.as_str()) {
        usage();
    }
    let Ok(file) = File::open(name) else { exit(3) };
    match run(&job, packed || job == "unpack", limits, file) {
        Ok(good) => exit(if good { 0 } else { 1 }),
        Err(refusal) => {
            eprintln!("refused: {refusal}");
            exit(1);
        }
    }
}
