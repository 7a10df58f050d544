//! A writer that holds back the reader of its connection, and fails where nothing that it writes is read.

use crate::Watch;
use futures_io::AsyncWrite;
use std::fmt;
use std::future::Future;
use std::io;
use std::pin::Pin;
use std::sync::{Arc, Mutex, MutexGuard, PoisonError};
use std::task::{Context, Poll, Waker};

// What the reader and the writer of a connection share.
pub(crate) struct Shared<H: Watch> {
    pub(crate) watch: H,
    // whether the peer has to read before more can be written
    is_full: bool,
    // whether the reader has ended
    has_ended: bool,
    // the deadline of what is unread, and whether it is over
    unread: Option<Pin<Box<H::Deadline>>>,
    is_over: bool,
    reader: Option<Waker>,
    writer: Option<Waker>,
}

impl<H: Watch> Shared<H> {
    pub(crate) fn new(watch: H) -> Arc<Mutex<Self>> {
        Arc::new(Mutex::new(Self {
            watch,
            is_full: false,
            has_ended: false,
            unread: None,
            is_over: false,
            reader: None,
            writer: None,
        }))
    }

    // Whether the reader may read. Else it is woken when it may.
    pub(crate) fn may_read(&mut self, context: &mut Context<'_>) -> bool {
        if self.is_full && !self.is_over {
            self.reader = Some(context.waker().clone());
        }
        !self.is_full || self.is_over
    }

    // Whether nothing was read in time.
    pub(crate) fn is_over(&self) -> bool {
        self.is_over
    }

    // Notes that the reader has ended, and starts the time of what is unread then.
    pub(crate) fn end(&mut self) {
        self.has_ended = true;
        self.unread = self.watch.unread().map(Box::pin);
        if let Some(writer) = self.writer.take() {
            writer.wake();
        }
    }

    // Whether the deadline of what is unread is over.
    fn is_late(&mut self, context: &mut Context<'_>) -> bool {
        if let (Some(unread), false) = (&mut self.unread, self.is_over) {
            self.is_over = unread.as_mut().poll(context).is_ready();
            if self.is_over {
                self.unread = None;
                self.wake_reader();
            }
        }
        self.is_over
    }

    fn wake_reader(&mut self) {
        if let Some(reader) = self.reader.take() {
            reader.wake();
        }
    }

    // Notes that the peer has to read first.
    fn wait(&mut self, context: &mut Context<'_>) {
        self.is_full = true;
        if self.unread.is_none() && !self.has_ended {
            self.unread = self.watch.unread().map(Box::pin);
        }
        self.writer = Some(context.waker().clone());
    }

    // Notes that the peer has read something. (After the end the time goes on)
    fn go_on(&mut self) {
        if self.is_full {
            self.is_full = false;
            self.wake_reader();
        }
        if !self.has_ended {
            self.unread = None;
        }
    }
}

// (a `Watch` that panics leaves nothing half done)
pub(crate) fn locked<H: Watch>(shared: &Mutex<Shared<H>>) -> MutexGuard<'_, Shared<H>> {
    shared.lock().unwrap_or_else(PoisonError::into_inner)
}

/// The writer of a connection beside a [`VettingRead`](crate::VettingRead); see [`vetting`](crate::vetting).
pub struct PacedWrite<W, H: Watch> {
    writer: W,
    shared: Arc<Mutex<Shared<H>>>,
}

impl<W, H: Watch> PacedWrite<W, H> {
    pub(crate) fn new(writer: W, shared: Arc<Mutex<Shared<H>>>) -> Self {
        Self { writer, shared }
    }
}

impl<W: Unpin, H: Watch> PacedWrite<W, H> {
    // Writes by this function, and notes whether the peer has to read first.
    fn poll<T>(
        &mut self,
        context: &mut Context<'_>,
        write: impl FnOnce(Pin<&mut W>, &mut Context<'_>) -> Poll<io::Result<T>>,
    ) -> Poll<io::Result<T>> {
        if !locked(&self.shared).is_over() {
            let written = write(Pin::new(&mut self.writer), context);
            let mut shared = locked(&self.shared);
            match written {
                Poll::Pending => shared.wait(context),
                Poll::Ready(_) => shared.go_on(),
            }
            if !shared.is_late(context) || matches!(written, Poll::Ready(Err(_))) {
                return written;
            }
        }
        let text = "what was written isn't read";
        Poll::Ready(Err(io::Error::new(io::ErrorKind::TimedOut, text)))
    }
}

impl<W: AsyncWrite + Unpin, H: Watch> AsyncWrite for PacedWrite<W, H> {
    fn poll_write(
        mut self: Pin<&mut Self>,
        context: &mut Context<'_>,
        bytes: &[u8],
    ) -> Poll<io::Result<usize>> {
        self.poll(context, |writer, context| writer.poll_write(context, bytes))
    }

    fn poll_flush(mut self: Pin<&mut Self>, context: &mut Context<'_>) -> Poll<io::Result<()>> {
        self.poll(context, W::poll_flush)
    }

    fn poll_close(mut self: Pin<&mut Self>, context: &mut Context<'_>) -> Poll<io::Result<()>> {
        self.poll(context, W::poll_close)
    }
}

impl<W, H: Watch> fmt::Debug for PacedWrite<W, H> {
    fn fmt(&self, f: &mut fmt::Formatter<'_>) -> fmt::Result {
        let shared = locked(&self.shared);
        f.debug_struct("PacedWrite")
            .field("is_full", &shared.is_full)
            .field("has_ended", &shared.has_ended)
            .field("is_over", &shared.is_over)
            .finish_non_exhaustive()
    }
}
