//! Checks untrusted Cap'n Proto messages before an RPC system of the crate `capnp-rpc` receives them. A server makes the network
//! of a connection:
//!
//! ```
//! use capnp_rpc::rpc_twoparty_capnp::Side;
//! use capnp_rpc::twoparty::VatNetwork;
//! use capvet::Limits;
//! use capvet_capnp_rpc::{VettingRead, Watch};
//! use futures::io::{AsyncRead, AsyncWrite};
//!
//! /// The clock is `tokio::time::sleep`, or another function that makes such a future.
//! fn network<R, W, C>(reader: R, writer: W, clock: C) -> VatNetwork<VettingRead<R, C>>
//! where
//!     R: AsyncRead + Unpin + 'static,
//!     W: AsyncWrite + Unpin + 'static,
//!     C: Watch + 'static,
//! {
//!     let (reader, writer, options) = capvet_capnp_rpc::vetting(reader, writer, Limits::DEFAULT, clock);
//!     VatNetwork::new(reader, writer, Side::Server, options)
//! }
//! ```
//!
//! A [`VettingRead`] is an [`AsyncRead`] around the one of a connection. It holds the bytes of a message back until the message
//! is whole and accepted. A [`PacedWrite`] lets it read no further message while the peer leaves replies unread. The options are
//! limits under which the RPC system reads each accepted message.
//!
//! The limits have to allow what the peers send. By default a message has to be strict and unamplified, as for
//! [`capvet::vet`]. A message that isn't accepted ends the connection: reading fails from then on, with the text of
//! [`Ended`]. The RPC system passes that on to the peer.
//!
//! # Time and counts
//!
//! By default a message has 20 seconds from its first byte to its last, and replies may be unread for 60 seconds. A type of yours
//! that implements [`Watch`] sets other deadlines, also one for an idle connection, and learns how the connection ended.
//!
//! Vetting bounds one message. It bounds neither the number of connections nor the work of a call. `examples/rust/rpc` is a
//! server with limits of connections.
//!
//! # Panics of `capnp-rpc`
//!
//! `capnp-rpc` 0.14.1 and 0.19.0 panic at some accepted messages. One is a `Return` for a question that nobody asked, of 56 bytes.
//! 0.27.0 reports an error there; its list of changes says so from 0.26.1 on. Vetting knows no schema, so it accepts such
//! messages. A service has to survive a panic:
//!
//! - It runs each connection in a task of its own, as by `tokio::task::spawn_local`, or in `std::panic::catch_unwind`.
//! - Its profile doesn't have `panic = "abort"`.
//! - What it counts for a connection it gives back in a [`Drop`], since no code after the `await` runs.
//!
//! [`Watch::ended`] is then called with [`End::Dropped`].
//!
//! # Versions
//!
//! Each minor version of `capnp` has other types, so there is a version of this crate for each: take the one with the same minor
//! number. `capvet_capnp_rpc` 0.27 is for `capnp` and `capnp-rpc` 0.27. There are versions for 0.14 to 0.27. It was tested with
//! `capnp-rpc` 0.14.1 and 0.27.0, and before its last change with 0.19.0. The versions between were not built.

#![forbid(unsafe_code)]
#![warn(missing_docs, missing_debug_implementations)]

use capnp::message::ReaderOptions;
use capvet::{Limits, Path, VetError};
use capvet_capnp::Error;
use futures_io::AsyncRead;
use std::fmt;
use std::future::Future;
use std::io;
use std::mem::take;
use std::pin::Pin;
use std::sync::{Arc, Mutex};
use std::task::{Context, Poll};
use std::time::Duration;
pub use writing::PacedWrite;
use writing::{locked, Shared};

/// Why no more messages come from a connection.
#[derive(Clone, Debug, PartialEq, Eq)]
#[non_exhaustive]
pub enum End {
    /// The peer has ended the connection between two messages.
    Closed,
    /// A message isn't accepted. For one that the peer has cut it is [`capvet::FrameError::Truncated`].
    NotAccepted(
        /// The reason, with the pointer where there is one.
        Error,
    ),
    /// A message wasn't whole at its deadline.
    Late,
    /// No message came until the deadline of [`Watch::idle`].
    Idle,
    /// The peer didn't read until the deadline of [`Watch::unread`].
    Unread,
    /// The connection failed.
    Failed(
        /// The kind of the error.
        io::ErrorKind,
    ),
    /// The reader was dropped before any of these: the RPC system ended the connection, or it panicked.
    Dropped,
}

/// How a connection ended, and what had come until then.
#[derive(Clone, Debug, PartialEq, Eq)]
#[non_exhaustive]
pub struct Ended {
    /// Why no more messages come.
    pub end: End,
    /// How many messages had been accepted.
    pub messages: u64,
    /// How many bytes had come in all.
    pub bytes: u64,
    /// How many of these bytes are of the message that isn't accepted or isn't whole, as far as it had come.
    pub partial: usize,
    message: Message,
}

// The last message, while `Watch::ended` runs. It is no part of a copy.
#[derive(Default)]
struct Message {
    buffer: Vec<u8>,
    start: usize,
    limits: Limits,
}

impl Clone for Message {
    fn clone(&self) -> Self {
        Self::default()
    }
}

impl PartialEq for Message {
    fn eq(&self, _: &Self) -> bool {
        true
    }
}

impl Eq for Message {}

impl fmt::Debug for Message {
    fn fmt(&self, f: &mut fmt::Formatter<'_>) -> fmt::Result {
        f.write_str("..")
    }
}

/// As in the lines of the program, where it has one.
impl fmt::Display for Ended {
    fn fmt(&self, f: &mut fmt::Formatter<'_>) -> fmt::Result {
        match &self.end {
            End::Closed => f.write_str("closed"),
            End::NotAccepted(error) => error.fmt(f),
            End::Late => write!(f, "late, with {} bytes of a message", self.partial),
            End::Idle => f.write_str("idle"),
            End::Unread => f.write_str("replies unread"),
            End::Failed(kind) => write!(f, "failed: {kind}"),
            End::Dropped => f.write_str("dropped"),
        }
    }
}

impl Ended {
    /// Returns the path to the pointer that is refused, such as `/p0/i7/p2`: which field it is. It is found by one more walk up
    /// to this pointer.
    ///
    /// It is `None` if the reason names no pointer, if [`Watch::ended`] has returned, and for a clone: the message is dropped
    /// with the connection's buffer.
    #[must_use]
    pub fn path(&self) -> Option<Path> {
        let error = match &self.end {
            End::NotAccepted(error) => error,
            _ => return None,
        };
        match error.error() {
            VetError::Refused(refusal) => {
                let bytes = &self.message.buffer[self.message.start..];
                refusal.path(bytes, self.message.limits)
            }
            _ => None,
        }
    }

    // The error that reading fails with, or none where it ends.
    fn error(&self) -> Option<io::Error> {
        let kind = match &self.end {
            End::Closed | End::Dropped => return None,
            End::NotAccepted(error) => io::Error::from(*error).kind(),
            End::Late | End::Idle | End::Unread => io::ErrorKind::TimedOut,
            End::Failed(kind) => *kind,
        };
        Some(io::Error::new(kind, self.to_string()))
    }
}

/// What watches over a connection: its clock, its deadlines, and who learns how it ended.
///
/// A function that makes a future which is ready after a time, as `tokio::time::sleep` does, is one with the default deadlines.
/// `|_| std::future::pending()` has none.
///
/// # Examples
///
/// ```
/// use capvet_capnp_rpc::{Ended, Watch};
/// use std::net::SocketAddr;
/// use std::time::Duration;
/// # async fn sleep(_: Duration) {}
///
/// struct Peer(SocketAddr);
///
/// impl Watch for Peer {
///     // (with tokio it is `tokio::time::Sleep`)
///     type Deadline = std::pin::Pin<Box<dyn std::future::Future<Output = ()>>>;
///
///     fn sleep(&mut self, time: Duration) -> Self::Deadline {
///         Box::pin(sleep(time))
///     }
///
///     fn idle(&mut self) -> Option<Self::Deadline> {
///         Some(self.sleep(Duration::from_secs(600)))
///     }
///
///     fn ended(&mut self, ended: &Ended) {
///         eprintln!("{}: {ended}", self.0);
///     }
/// }
/// ```
pub trait Watch {
    /// A future that is ready at a deadline.
    type Deadline: Future<Output = ()>;

    /// Returns a future that is ready after this time.
    fn sleep(&mut self, time: Duration) -> Self::Deadline;

    /// Returns the deadline of a message of which a part has come, or none. It is called once for each such message, when the
    /// rest is waited for. By default it is after 20 seconds.
    fn deadline(&mut self) -> Option<Self::Deadline> {
        Some(self.sleep(Duration::from_secs(20)))
    }

    /// Returns the deadline of the next message's first byte, or none, which is the default. It is called each time that the next
    /// message is waited for.
    ///
    /// At this deadline the connection ends, whatever the reason of the silence. A peer that waits for the result of a call sends
    /// no message either, so it has to be longer than a call may take.
    fn idle(&mut self) -> Option<Self::Deadline> {
        None
    }

    /// Returns the deadline of what the peer doesn't read, or none. It is called each time that a [`PacedWrite`] has to wait for
    /// the peer. It is called once more at the end, for what isn't read then. By default it is after 60 seconds.
    fn unread(&mut self) -> Option<Self::Deadline> {
        Some(self.sleep(Duration::from_secs(60)))
    }

    /// Is called once: at the end of the connection, at the first message that isn't accepted, or when the [`VettingRead`] is
    /// dropped before both. The writer waits for it, so it must not wait for anything. It must not panic: a thread that already
    /// panics may be the one that drops the reader, and a second panic ends the process.
    fn ended(&mut self, ended: &Ended) {
        let _ = ended;
    }
}

impl<F, D> Watch for F
where
    F: FnMut(Duration) -> D,
    D: Future<Output = ()>,
{
    type Deadline = D;

    fn sleep(&mut self, time: Duration) -> D {
        self(time)
    }
}

/// Makes a reader and a writer of a connection, around those that it has, and the options of the RPC system. The reader vets each message within these limits, and
/// reads no further message while the writer has to wait for the peer. So a peer that reads no replies causes few of them. At the
/// deadline of [`Watch::unread`] both fail: the RPC system then drops what is unread, and the connection.
///
/// Without a clock it doesn't compile:
///
/// ```compile_fail
/// use futures::io::{AsyncRead, AsyncWrite};
///
/// fn without_a_clock(reader: impl AsyncRead, writer: impl AsyncWrite) {
///     capvet_capnp_rpc::vetting(reader, writer, capvet::Limits::DEFAULT, ());
/// }
/// ```
///
/// Use it at one side of a connection, mostly the server's. If both sides wait for the other one to read, nothing goes on before
/// the deadline.
pub fn vetting<R, W, H: Watch>(
    reader: R,
    writer: W,
    limits: Limits,
    watch: H,
) -> (VettingRead<R, H>, PacedWrite<W, H>, ReaderOptions) {
    let reader = VettingRead::new(reader, limits, watch);
    let writer = PacedWrite::new(writer, reader.shared.clone());
    let options = reader.options();
    (reader, writer, options)
}

// The least size of the buffer, the greatest that is kept after a message, and the greatest that a claim alone gets.
const LEAST: usize = 8 << 10;
const KEPT: usize = 64 << 10;
const CLAIMED: usize = 1 << 20;

/// A reader of a connection that passes on accepted messages alone. The other end of it is a
/// `capnp_rpc::twoparty::VatNetwork`, or `capnp_futures::serialize::read_message`.
///
/// It reads what is there, so it may hold the beginning of the next message. For a message it takes as much memory as the peer
/// claims, up to 1 MiB. What is more grows with the bytes that come, to at most [`Limits::frame_bound`], and takes twice as much
/// while it grows. After a message it keeps 64 KiB.
pub struct VettingRead<R, H: Watch> {
    reader: R,
    limits: Limits,
    shared: Arc<Mutex<Shared<H>>>,
    deadline: Option<Pin<Box<H::Deadline>>>,
    // the bytes that have come and aren't passed on are `buffer[start..filled]`
    buffer: Vec<u8>,
    start: usize,
    filled: usize,
    // how many bytes of an accepted message are to be passed on
    passing: usize,
    ended: Option<Ended>,
    messages: u64,
    bytes: u64,
}

impl<R, H: Watch> VettingRead<R, H> {
    /// Makes a reader that vets each message of another one within these limits. A client uses it alone.
    pub fn new(reader: R, limits: Limits, watch: H) -> Self {
        Self {
            reader,
            limits,
            shared: Shared::new(watch),
            deadline: None,
            buffer: Vec::new(),
            start: 0,
            filled: 0,
            passing: 0,
            ended: None,
            messages: 0,
            bytes: 0,
        }
    }

    /// Returns options under which the crate `capnp` reads each message that is accepted; see
    /// [`capvet_capnp::options_for`].
    pub fn options(&self) -> ReaderOptions {
        capvet_capnp::options_for(self.limits)
    }

    /// Returns how the connection ended, if it has.
    pub fn ended(&self) -> Option<&Ended> {
        self.ended.as_ref()
    }

    // Ends reading, and reports why.
    fn end(&mut self, end: End) -> io::Result<usize> {
        let error = self.report(end).error();
        locked(&self.shared).end();
        error.map_or(Ok(0), Err)
    }

    // Reports how the connection ended.
    fn report(&mut self, end: End) -> Ended {
        let mut buffer = take(&mut self.buffer);
        buffer.truncate(self.filled);
        let ended = Ended {
            end,
            messages: self.messages,
            bytes: self.bytes,
            partial: self.filled - self.start - self.passing,
            message: Message {
                buffer,
                start: self.start,
                limits: self.limits,
            },
        };
        (self.start, self.filled) = (0, 0);
        self.deadline = None;
        // (before the call, which may be of anyone)
        self.ended = Some(ended.clone());
        locked(&self.shared).watch.ended(&ended);
        ended
    }

    // Passes on what fits of an accepted message.
    fn pass(&mut self, out: &mut [u8]) -> usize {
        let count = out.len().min(self.passing);
        out[..count].copy_from_slice(&self.buffer[self.start..self.start + count]);
        self.start += count;
        self.passing -= count;
        if self.start == self.filled {
            (self.start, self.filled) = (0, 0);
            if self.buffer.len() > KEPT {
                self.buffer = Vec::new();
            }
        }
        count
    }

    // Vets the next message, if it is whole. Else it returns how many bytes get further.
    fn vet(&mut self) -> Result<u64, Error> {
        let bytes = &self.buffer[self.start..self.filled];
        let error = match capvet::vet_prefix(bytes, self.limits) {
            Ok((message, _)) => {
                (self.passing, self.deadline) = (message.bytes().len(), None);
                self.messages += 1;
                return Ok(0);
            }
            Err(error) => error,
        };
        match error {
            VetError::Frame(frame) => frame.required().ok_or_else(|| error.into()),
            _ => Err(error.into()),
        }
    }

    // The reason of a message that the peer has cut.
    fn cut(&self) -> End {
        let bytes = &self.buffer[self.start..self.filled];
        match capvet::frame_length(bytes, self.limits) {
            Err(error) => End::NotAccepted(VetError::from(error).into()),
            Ok(_) => End::Closed,
        }
    }

    // Makes space for more bytes of a message, of which this number gets further.
    fn make_space(&mut self, required: u64) {
        if self.start > 0 {
            self.buffer.copy_within(self.start..self.filled, 0);
            (self.start, self.filled) = (0, self.filled - self.start);
        }
        if self.filled == self.buffer.len() || self.buffer.is_empty() {
            // (the length is a claim of the peer, so what is more than a little is taken as bytes come)
            let most = CLAIMED.max(2 * self.filled);
            let length = usize::try_from(required).map_or(most, |it| it.min(most));
            let length = length.max(LEAST);
            let mut longer = vec![0; length];
            longer[..self.filled].copy_from_slice(&self.buffer[..self.filled]);
            self.buffer = longer;
        }
    }
}

impl<R: AsyncRead + Unpin, H: Watch> VettingRead<R, H> {
    // The reason to end where a deadline is over: that of the message of which a part has come, or that of the next one. It is
    // asked for when more bytes are waited for.
    fn overdue(&mut self, context: &mut Context<'_>) -> Option<End> {
        let has_begun = self.start < self.filled;
        if self.deadline.is_none() {
            let watch = &mut locked(&self.shared).watch;
            let deadline = match has_begun {
                true => watch.deadline(),
                false => watch.idle(),
            };
            self.deadline = deadline.map(Box::pin);
        }
        let is_over = self.deadline.as_mut()?.as_mut().poll(context).is_ready();
        let reason = match has_begun {
            true => End::Late,
            false => End::Idle,
        };
        is_over.then_some(reason)
    }

    // Reads more bytes. Returns the reason where there are none.
    fn poll_more(&mut self, context: &mut Context<'_>, required: u64) -> Poll<Option<End>> {
        self.make_space(required);
        let space = &mut self.buffer[self.filled..];
        Poll::Ready(match Pin::new(&mut self.reader).poll_read(context, space) {
            Poll::Pending => match self.overdue(context) {
                None => return Poll::Pending,
                reason => reason,
            },
            Poll::Ready(Ok(0)) if self.start == self.filled => Some(End::Closed),
            Poll::Ready(Ok(0)) => Some(self.cut()),
            Poll::Ready(Ok(count)) => {
                if self.start == self.filled {
                    // (a message begins, so what is due now is its end)
                    self.deadline = None;
                }
                self.filled += count;
                self.bytes += count as u64;
                None
            }
            Poll::Ready(Err(error)) if error.kind() == io::ErrorKind::Interrupted => None,
            Poll::Ready(Err(error)) => Some(End::Failed(error.kind())),
        })
    }
}

impl<R: AsyncRead + Unpin, H: Watch> AsyncRead for VettingRead<R, H> {
    fn poll_read(
        mut self: Pin<&mut Self>,
        context: &mut Context<'_>,
        out: &mut [u8],
    ) -> Poll<io::Result<usize>> {
        let this = &mut *self;
        if out.is_empty() {
            return Poll::Ready(Ok(0));
        }
        loop {
            if this.passing > 0 {
                return Poll::Ready(Ok(this.pass(out)));
            }
            if let Some(ended) = &this.ended {
                return Poll::Ready(ended.error().map_or(Ok(0), Err));
            }
            let mut shared = locked(&this.shared);
            if shared.is_over() {
                drop(shared);
                return Poll::Ready(this.end(End::Unread));
            }
            if !shared.may_read(context) {
                return Poll::Pending;
            }
            drop(shared);
            let required = match this.vet() {
                Ok(0) => continue,
                Ok(required) => required,
                Err(error) => return Poll::Ready(this.end(End::NotAccepted(error))),
            };
            match this.poll_more(context, required) {
                Poll::Pending => return Poll::Pending,
                Poll::Ready(None) => {}
                Poll::Ready(Some(reason)) => return Poll::Ready(this.end(reason)),
            }
        }
    }
}

impl<R, H: Watch> Drop for VettingRead<R, H> {
    fn drop(&mut self) {
        if self.ended.is_none() {
            self.report(End::Dropped);
        }
    }
}

impl<R, H: Watch> fmt::Debug for VettingRead<R, H> {
    fn fmt(&self, f: &mut fmt::Formatter<'_>) -> fmt::Result {
        f.debug_struct("VettingRead")
            .field("limits", &self.limits)
            .field("messages", &self.messages)
            .field("bytes", &self.bytes)
            .field("ended", &self.ended)
            .finish_non_exhaustive()
    }
}

#[cfg(test)]
mod tests;
mod writing;
