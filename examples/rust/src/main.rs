//! Vets the messages of a file in process, and prints for each the line of `capvet vet --strict --unamplified`.
//!
//!     cargo run -- FILE
//!
//! The status is 0 if all messages are accepted, 1 if one is not, 2 for a wrong command line, and 3 if the file can't be
//! read.

use capvet::{Limits, VetError};
use std::process::ExitCode;
use std::{env, fs};

fn main() -> ExitCode {
    let mut arguments = env::args_os().skip(1);
    let name = match (arguments.next(), arguments.next()) {
        (Some(name), None) => name,
        _ => {
            eprintln!("usage: vet FILE");
            return ExitCode::from(2);
        }
    };
    match fs::read(&name) {
        Ok(bytes) => ExitCode::from(u8::from(!vet_all(&bytes))),
        Err(error) => {
            eprintln!("vet: {}: {error}", name.to_string_lossy());
            ExitCode::from(3)
        }
    }
}

// Prints the line of each message, and returns whether all are accepted.
fn vet_all(bytes: &[u8]) -> bool {
    let mut all = true;
    for (number, message) in capvet::messages(bytes, Limits::DEFAULT).enumerate() {
        all &= message.is_ok();
        match message {
            Ok(message) => println!("message {number}: {}", message.report()),
            Err(error @ VetError::Frame(_)) => eprintln!("vet: message {number}: {error}"),
            Err(refusal) => println!("message {number}: {refusal}"),
        }
    }
    all
}
