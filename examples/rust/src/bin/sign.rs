//! Passes the canonical form of a message to a command that hashes or signs it. The result is the same however the message
//! is encoded.
//!
//!     cargo run --bin sign -- FILE COMMAND..
//!
//! For example `sign FILE sha256sum`, or `sign FILE openssl dgst -sha256 -sign key.pem`. FILE is one message and nothing else.
//!
//! The form doesn't name its schema. If one key signs messages of several schemas, sign the schema's name before it.
//!
//! The status is that of the command. It is 1 if the message has no canonical form, 2 for a wrong command line, and 3 if
//! the file can't be read or the command doesn't run.

use capvet::Limits;
use std::error::Error;
use std::ffi::OsString;
use std::io::Write;
use std::process::{Command, ExitCode, Stdio};
use std::{env, fs, io};

fn main() -> ExitCode {
    let arguments: Vec<OsString> = env::args_os().skip(1).collect();
    let (name, command) = match &arguments[..] {
        [name, command @ ..] if !command.is_empty() => (name, command),
        _ => {
            eprintln!("usage: sign FILE COMMAND..");
            return ExitCode::from(2);
        }
    };
    let bytes = match fs::read(name) {
        Ok(bytes) => bytes,
        Err(error) => {
            eprintln!("sign: {}: {error}", name.to_string_lossy());
            return ExitCode::from(3);
        }
    };
    let form = match canonical(&bytes) {
        Ok(form) => form,
        Err(error) => {
            eprintln!("sign: {error}");
            return ExitCode::from(1);
        }
    };
    match run(command, &form) {
        Ok(status) => ExitCode::from(status),
        Err(error) => {
            eprintln!("sign: {}: {error}", command[0].to_string_lossy());
            ExitCode::from(3)
        }
    }
}

// The canonical form of the message that these bytes are.
fn canonical(bytes: &[u8]) -> Result<Vec<u8>, Box<dyn Error>> {
    Ok(capvet::vet(bytes, Limits::DEFAULT)?.canonical()?)
}

// Runs a command with these bytes as its input, and returns its status, or 3 if a signal ended it.
fn run(command: &[OsString], input: &[u8]) -> io::Result<u8> {
    let mut child = Command::new(&command[0])
        .args(&command[1..])
        .stdin(Stdio::piped())
        .spawn()?;
    // (the pipe is closed when the handle is dropped)
    let written = child.stdin.take().map(|mut pipe| pipe.write_all(input));
    let status = child.wait()?;
    written.unwrap_or(Ok(()))?;
    let code = status.code().and_then(|code| u8::try_from(code).ok());
    Ok(code.unwrap_or(3))
}
