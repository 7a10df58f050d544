//! Vets the messages that come on standard input by a codec of tokio, and prints for each the line of
//! `capvet vet --strict --unamplified`.
//!
//!     cargo run --bin receive_async < FILE
//!
//! The status is 0 if all messages are accepted, and else 1.

use bytes::BytesMut;
use capvet::{Feed, Limits, MessageBuf, NotAccepted};
use futures::StreamExt;
use std::io;
use std::process::ExitCode;
use tokio_util::codec::{Decoder, FramedRead};

/// Gives the messages of a connection, vetted, and those that are refused.
struct Vetting(Feed);

impl Decoder for Vetting {
    type Item = Result<MessageBuf, NotAccepted>;
    type Error = io::Error;

    fn decode(&mut self, received: &mut BytesMut) -> io::Result<Option<Self::Item>> {
        self.0.push(&received.split());
        Ok(self.0.next())
    }

    fn decode_eof(&mut self, received: &mut BytesMut) -> io::Result<Option<Self::Item>> {
        self.0.finish();
        self.decode(received)
    }
}

#[tokio::main(flavor = "current_thread")]
async fn main() -> io::Result<ExitCode> {
    let feed = Feed::new(Limits::DEFAULT);
    let mut messages = FramedRead::new(tokio::io::stdin(), Vetting(feed));
    let (mut number, mut all) = (0, true);
    while let Some(message) = messages.next().await {
        match message? {
            Ok(message) => println!("message {number}: {}", message.report()),
            Err(refused) => {
                println!("message {number}: {refused}");
                all = false;
            }
        }
        number += 1;
    }
    Ok(ExitCode::from(u8::from(!all)))
}
