//! Vets the messages of a packed stream as they are received on standard input, and prints for each the line of
//! `capvet vet --packed --strict --unamplified`. It holds one message, of at most 512 KiB in segments.
//!
//!     cargo run --bin receive < FILE
//!
//! The status is 0 if all messages are accepted, 1 if one is not, and 3 if reading fails. Nothing is read after bytes that are
//! no message.

use capvet::{Limits, ReadError, VetError};
use std::io::{self, Read};
use std::process::ExitCode;

const LIMITS: Limits = Limits::DEFAULT
    .with_message_words(65_536)
    .with_charge(65_536);

fn main() -> ExitCode {
    match vet_all(io::stdin().lock()) {
        Ok(all) => ExitCode::from(u8::from(!all)),
        Err(error) => {
            eprintln!("receive: {error}");
            ExitCode::from(3)
        }
    }
}

// Prints the line of each message, and returns whether all are accepted.
fn vet_all(reader: impl Read) -> io::Result<bool> {
    let mut all = true;
    for (number, message) in capvet::read_packed_messages(reader, LIMITS).enumerate() {
        all &= message.is_ok();
        match message {
            Ok(message) => println!("message {number}: {}", message.report()),
            Err(ReadError::NotAccepted(it)) => match it.error {
                VetError::Frame(error) => eprintln!("receive: message {number}: {error}"),
                refusal => println!("message {number}: {refusal}"),
            },
            Err(error) => return Err(error.into()),
        }
    }
    Ok(all)
}
