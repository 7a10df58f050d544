//! Reads a message by the crate `capnp`, after capvet has accepted it.
//!
//!     cargo run -- FILE
//!
//! FILE is one message and nothing else. It is a crate of its own, because cargo needs the crate `capnp` to build it.
//!
//! The status is 0 if the message is read, 1 if it is refused, 2 for a wrong command line, and 3 if the file can't be read.

use capnp::any_pointer;
use capnp::message::Reader;
use capvet::Limits;
use capvet_capnp::Vetted;
use std::error::Error;
use std::process::ExitCode;
use std::{env, fs};

// What a peer may send: 1 MiB, and as many words of charge.
const LIMITS: Limits = Limits::DEFAULT
    .with_message_words(131_072)
    .with_charge(131_072);

fn main() -> ExitCode {
    let mut arguments = env::args_os().skip(1);
    let name = match (arguments.next(), arguments.next()) {
        (Some(name), None) => name,
        _ => {
            eprintln!("usage: read FILE");
            return ExitCode::from(2);
        }
    };
    let bytes = match fs::read(&name) {
        Ok(bytes) => bytes,
        Err(error) => {
            eprintln!("read: {}: {error}", name.to_string_lossy());
            return ExitCode::from(3);
        }
    };
    match received(bytes).and_then(|message| words(&message)) {
        Ok(words) => {
            println!("accepted, {words} words in capnp");
            ExitCode::SUCCESS
        }
        Err(error) => {
            eprintln!("read: {error}");
            ExitCode::from(1)
        }
    }
}

// The message, which owns its bytes.
fn received(bytes: Vec<u8>) -> Result<Reader<Vetted<'static>>, Box<dyn Error>> {
    Ok(capvet_capnp::vetted(bytes, LIMITS)?.into_reader())
}

// The words of the tree below the root. With a schema the root is asked for as its type: `get_root::<book::Reader>()`.
fn words(message: &Reader<Vetted<'static>>) -> Result<u64, Box<dyn Error>> {
    let root = message.get_root::<any_pointer::Reader>()?;
    Ok(root.target_size()?.word_count)
}
