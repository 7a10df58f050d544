//! What the reader passes on, how it ends, and what it holds.

use crate::{vetting, End, Ended, VettingRead, Watch};
use capvet::Limits;
use futures::channel::oneshot;
use futures::executor::block_on;
use futures::future::{FutureExt, Map};
use futures::io::{AsyncRead, AsyncReadExt, AsyncWrite, AsyncWriteExt, Cursor};
use std::cell::{Cell, RefCell};
use std::future::{pending, Pending};
use std::io;
use std::panic::{catch_unwind, resume_unwind, AssertUnwindSafe};
use std::pin::Pin;
use std::rc::Rc;
use std::task::{Context, Poll};
use std::time::Duration;

const STREAM: &[u8] = include_bytes!("../../../examples/stream-of-four.bin");
const MANY_SEGMENTS: &[u8] = include_bytes!("../../../examples/contacts-many-segments.bin");
const CYCLE: &[u8] = include_bytes!("../../../examples/cycle.bin");

// A connection that gives these pieces, one at a time, and then its end, an error, or nothing.
struct Pieces {
    pieces: Vec<Vec<u8>>,
    last: Option<io::Result<usize>>,
}

impl Pieces {
    // The bytes in pieces of this length. A wake-up comes before each of them.
    fn of(bytes: &[u8], length: usize) -> Self {
        let pieces = bytes.chunks(length).rev();
        Self {
            pieces: pieces.flat_map(|it| [it.to_vec(), Vec::new()]).collect(),
            last: Some(Ok(0)),
        }
    }
}

impl AsyncRead for Pieces {
    fn poll_read(
        mut self: Pin<&mut Self>,
        context: &mut Context<'_>,
        out: &mut [u8],
    ) -> Poll<io::Result<usize>> {
        match self.pieces.pop() {
            Some(piece) if piece.is_empty() => {
                context.waker().wake_by_ref();
                Poll::Pending
            }
            Some(mut piece) => {
                let rest = piece.split_off(piece.len().min(out.len()));
                out[..piece.len()].copy_from_slice(&piece);
                if !rest.is_empty() {
                    self.pieces.push(rest);
                }
                Poll::Ready(Ok(piece.len()))
            }
            None => self.last.take().map_or(Poll::Pending, Poll::Ready),
        }
    }
}

// A clock whose times never come.
fn no_time(_: Duration) -> Pending<()> {
    pending()
}

type Deadline = Map<oneshot::Receiver<()>, fn(Result<(), oneshot::Canceled>)>;

// Keeps what is reported, and has deadlines that come when they are sent.
#[derive(Clone, Default)]
struct Log {
    ended: Rc<RefCell<Vec<Ended>>>,
    paths: Rc<RefCell<Vec<Option<String>>>>,
    deadlines: Rc<RefCell<Vec<oneshot::Sender<()>>>>,
    idle: Rc<RefCell<Vec<oneshot::Sender<()>>>>,
    unread: Rc<RefCell<Vec<oneshot::Sender<()>>>>,
}

// A deadline that comes when it is sent.
fn sent_by(senders: &RefCell<Vec<oneshot::Sender<()>>>) -> Option<Deadline> {
    let (sender, receiver) = oneshot::channel();
    senders.borrow_mut().push(sender);
    Some(receiver.map(drop))
}

impl Watch for Log {
    type Deadline = Deadline;

    fn sleep(&mut self, _: Duration) -> Deadline {
        unreachable!("each deadline is its own")
    }

    fn deadline(&mut self) -> Option<Deadline> {
        sent_by(&self.deadlines)
    }

    fn idle(&mut self) -> Option<Deadline> {
        sent_by(&self.idle)
    }

    fn unread(&mut self) -> Option<Deadline> {
        sent_by(&self.unread)
    }

    fn ended(&mut self, ended: &Ended) {
        let path = ended.path().map(|it| it.to_string());
        self.paths.borrow_mut().push(path);
        self.ended.borrow_mut().push(ended.clone());
    }
}

// What comes through, with the text of an error, and what is reported.
fn through(pieces: Pieces, limits: Limits) -> (Vec<u8>, Option<String>, Ended) {
    let log = Log::default();
    let mut vetting = VettingRead::new(pieces, limits, log.clone());
    let mut out = Vec::new();
    let error = block_on(vetting.read_to_end(&mut out)).err();
    let again = block_on(vetting.read(&mut [0; 8])).map_err(|error| error.to_string());
    let text = error.map(|error| error.to_string());
    assert_eq!(again, text.clone().map_or(Ok(0), Err), "reading again");
    let ended = log.ended.take();
    assert_eq!((ended.len(), vetting.ended()), (1, ended.first()));
    (out, text, ended[0].clone())
}

#[test]
fn accepted_messages_come_through_in_any_pieces() {
    let stream = [STREAM, MANY_SEGMENTS, STREAM].concat();
    for length in [1, 3, 8, 13, 1000, 100_000] {
        let (out, error, ended) = through(Pieces::of(&stream, length), Limits::DEFAULT);
        assert!(out == stream && error.is_none(), "{length}");
        assert_eq!(
            (ended.end, ended.messages, ended.partial),
            (End::Closed, 9, 0)
        );
        assert_eq!(ended.bytes, stream.len() as u64);
    }
}

#[test]
fn nothing_of_a_refused_message_comes_through() {
    for length in [1, 7, 100_000] {
        let stream = [STREAM, CYCLE, STREAM].concat();
        let (out, error, ended) = through(Pieces::of(&stream, length), Limits::DEFAULT);
        assert_eq!(
            (&out[..], error.as_deref()),
            (STREAM, Some("refused DepthLimit at 0:0 pointers 65"))
        );
        assert_eq!(ended.messages, 4);
        match ended.end {
            End::NotAccepted(error) => match error.error() {
                capvet::VetError::Refused(refusal) => {
                    let pointer = refusal.pointer.expect("it names a pointer");
                    assert_eq!(pointer.position.to_string(), "0:0");
                }
                other => panic!("{other}"),
            },
            other => panic!("{other:?}"),
        }
    }
}

// The paths that are reported of a stream, and those that there are afterwards.
fn paths(stream: &[u8], limits: Limits) -> (Vec<Option<String>>, Option<capvet::Path>) {
    let log = Log::default();
    let mut vetting = VettingRead::new(Pieces::of(stream, 1000), limits, log.clone());
    let _ = block_on(vetting.read_to_end(&mut Vec::new()));
    let after = vetting.ended().and_then(Ended::path);
    (log.paths.take(), after)
}

#[test]
fn a_refused_pointer_has_its_path() {
    // (a struct of two pointers, of which the second leads past the end)
    let outside = [
        0, 0, 0, 0, 3, 0, 0, 0, 0, 0, 0, 0, 0, 0, 2, 0, 0, 0, 0, 0, 0, 0, 0, 0, 0, 0, 0, 0, 1, 0,
        0, 0,
    ];
    let path = |text: &str| (vec![Some(text.to_owned())], None);
    let stream = [STREAM, &outside, STREAM].concat();
    assert_eq!(paths(&stream, Limits::DEFAULT), path("/p1"));
    let deep = "/p0".repeat(3);
    assert_eq!(paths(CYCLE, Limits::DEFAULT.with_depth(3)), path(&deep));
    let root = [0, 0, 0, 0, 1, 0, 0, 0, 4, 0, 0, 0, 1, 0, 0, 0];
    assert_eq!(paths(&root, Limits::DEFAULT), path("/"));
}

#[test]
fn an_end_without_a_pointer_has_no_path() {
    for stream in [STREAM, &STREAM[..9], &[0, 0, 0, 0, 0, 0, 0, 0]] {
        assert_eq!(paths(stream, Limits::DEFAULT), (vec![None], None));
    }
}

#[test]
fn frames_that_are_cut_or_too_large_are_reported() {
    for (length, text) in [
        (1, "Truncated, 8 bytes are required"),
        (8, "Truncated, 3144 bytes are required"),
        (3143, "Truncated, 3144 bytes are required"),
    ] {
        let (out, error, ended) = through(Pieces::of(&STREAM[..length], 100), Limits::DEFAULT);
        assert_eq!((out.len(), error.as_deref()), (0, Some(text)));
        assert_eq!((ended.partial, ended.bytes), (length, length as u64));
    }
    for (table, text) in [
        (&[0, 2, 0, 0, 0, 0, 0, 0], "TooManySegments 513"),
        (
            &[255, 255, 255, 255, 0, 0, 0, 0],
            "TooManySegments 4294967296",
        ),
        (&[0, 0, 0, 0, 0, 16, 0, 0], "TooLarge 4096"),
    ] {
        let limits = Limits::DEFAULT.with_message_words(4095);
        let (out, error, ended) = through(Pieces::of(table, 8), limits);
        assert_eq!(
            (out.len(), error.as_deref(), ended.partial),
            (0, Some(text), 8)
        );
    }
}

#[test]
fn an_error_of_the_connection_is_reported() {
    let mut pieces = Pieces::of(&STREAM[..3200], 100);
    pieces.last = Some(Err(io::ErrorKind::ConnectionReset.into()));
    let (out, error, ended) = through(pieces, Limits::DEFAULT);
    assert_eq!(out, &STREAM[..3144]);
    assert_eq!(ended.end, End::Failed(io::ErrorKind::ConnectionReset));
    assert_eq!(
        error,
        Some(format!("failed: {}", io::ErrorKind::ConnectionReset))
    );
}

#[test]
fn a_message_that_is_not_whole_has_a_deadline() {
    for (length, deadlines) in [(0, 0), (3144, 0), (1, 1), (3145, 1), (3200, 1)] {
        let log = Log::default();
        // (all at once, and then nothing)
        let pieces = Pieces {
            pieces: vec![STREAM[..length].to_vec(); usize::from(length > 0)],
            last: None,
        };
        let mut vetting = VettingRead::new(pieces, Limits::DEFAULT, log.clone());
        let mut out = vec![0; length / 3144 * 3144];
        block_on(vetting.read_exact(&mut out)).expect("a message");
        assert_eq!(out, STREAM[..out.len()]);
        let mut more = [0; 8];
        assert!(vetting.read(&mut more).now_or_never().is_none());
        assert!(vetting.read(&mut more).now_or_never().is_none());
        assert_eq!(log.deadlines.borrow().len(), deadlines);
        for deadline in log.deadlines.take() {
            deadline.send(()).expect("it is waited for");
            let error = block_on(vetting.read(&mut more)).expect_err("it is late");
            assert_eq!(error.kind(), io::ErrorKind::TimedOut);
            let ended = log.ended.borrow();
            assert_eq!((ended.len(), &ended[0].end), (1, &End::Late));
            assert_eq!(
                ended[0].to_string(),
                format!("late, with {} bytes of a message", length - out.len())
            );
        }
    }
}

// By a clock alone: a message has 20 seconds, and unread replies 60. An idle connection has no end.
#[test]
fn there_are_deadlines_by_default() {
    for (length, seconds) in [(0, None), (9, Some(20)), (3144, None), (3200, Some(20))] {
        let asked = RefCell::new(Vec::new());
        let clock = |time: Duration| {
            asked.borrow_mut().push(time.as_secs());
            pending()
        };
        let pieces = Pieces {
            pieces: vec![STREAM[..length].to_vec(); usize::from(length > 0)],
            last: None,
        };
        let (mut reader, mut writer, options) =
            vetting(pieces, Peer::default(), Limits::DEFAULT, clock);
        assert_eq!(options.nesting_limit, 129);
        let mut out = vec![0; length / 3144 * 3144];
        block_on(reader.read_exact(&mut out)).expect("a message");
        assert!(reader.read(&mut [0; 8]).now_or_never().is_none());
        assert_eq!(asked.borrow().first().copied(), seconds);
        assert!(writer.write(b"a reply").now_or_never().is_none());
        assert_eq!(asked.borrow().last(), Some(&60));
    }
}

#[test]
fn each_message_has_a_deadline_of_its_own() {
    let log = Log::default();
    let mut vetting = VettingRead::new(Pieces::of(STREAM, 1000), Limits::DEFAULT, log.clone());
    let mut out = Vec::new();
    block_on(vetting.read_to_end(&mut out)).expect("it is accepted");
    let count = log.deadlines.borrow().len();
    assert!((2..=4).contains(&count), "{count}");
    // (none is left)
    assert!(log.deadlines.take().into_iter().all(|it| it.is_canceled()));
}

#[test]
fn a_connection_without_a_message_is_idle() {
    for length in [0, 3144] {
        let log = Log::default();
        let pieces = Pieces {
            pieces: vec![STREAM[..length].to_vec(); usize::from(length > 0)],
            last: None,
        };
        let mut vetting = VettingRead::new(pieces, Limits::DEFAULT, log.clone());
        let mut out = vec![0; length];
        block_on(vetting.read_exact(&mut out)).expect("a message");
        let mut more = [0; 8];
        assert!(vetting.read(&mut more).now_or_never().is_none());
        assert!(vetting.read(&mut more).now_or_never().is_none());
        let mut deadlines = log.idle.take();
        assert_eq!(deadlines.len(), 1);
        deadlines.remove(0).send(()).expect("it is waited for");
        let error = block_on(vetting.read(&mut more)).expect_err("it is idle");
        let text = error.to_string();
        assert_eq!((error.kind(), &text[..]), (io::ErrorKind::TimedOut, "idle"));
        let ended = log.ended.borrow();
        assert_eq!((ended.len(), &ended[0].end), (1, &End::Idle));
        assert_eq!(ended[0].bytes, length as u64);
        assert!(log.deadlines.borrow().is_empty());
    }
}

#[test]
fn a_message_that_begins_ends_the_time_of_an_idle_connection() {
    let log = Log::default();
    let pieces = Pieces {
        pieces: vec![STREAM[..1].to_vec(), Vec::new()],
        last: None,
    };
    let mut vetting = VettingRead::new(pieces, Limits::DEFAULT, log.clone());
    let mut more = [0; 8];
    assert!(vetting.read(&mut more).now_or_never().is_none());
    assert!(!log.idle.borrow()[0].is_canceled());
    assert!(vetting.read(&mut more).now_or_never().is_none());
    assert!(log.idle.borrow()[0].is_canceled());
    assert_eq!(
        (log.idle.borrow().len(), log.deadlines.borrow().len()),
        (1, 1)
    );
}

#[test]
fn memory_follows_the_bytes_that_come() {
    // A claim of 64 MiB, and then a message of 800,000 bytes.
    let claim = [&[0, 0, 0, 0, 0, 0, 0x80, 0][..], &[0; 10_000]].concat();
    let pieces = Pieces {
        pieces: vec![claim],
        last: None,
    };
    let mut vetting = VettingRead::new(pieces, Limits::DEFAULT, no_time);
    assert!(vetting.read(&mut [0; 8]).now_or_never().is_none());
    assert_eq!(vetting.buffer.len(), 1 << 20);
    let words = 100_000_u32;
    let mut message = vec![0; 8 + 8 * words as usize];
    message[4..8].copy_from_slice(&words.to_le_bytes());
    let mut vetting = VettingRead::new(Pieces::of(&message, 4000), Limits::DEFAULT, no_time);
    let mut out = vec![0; message.len()];
    block_on(vetting.read_exact(&mut out)).expect("it is accepted");
    assert!(vetting.buffer.is_empty());
}

// A writer to a peer that reads only while this is set.
#[derive(Clone, Default)]
struct Peer(Rc<Cell<bool>>);

impl AsyncWrite for Peer {
    fn poll_write(
        self: Pin<&mut Self>,
        _: &mut Context<'_>,
        bytes: &[u8],
    ) -> Poll<io::Result<usize>> {
        if self.0.get() {
            Poll::Ready(Ok(bytes.len()))
        } else {
            Poll::Pending
        }
    }

    fn poll_flush(self: Pin<&mut Self>, _: &mut Context<'_>) -> Poll<io::Result<()>> {
        Poll::Ready(Ok(()))
    }

    fn poll_close(self: Pin<&mut Self>, _: &mut Context<'_>) -> Poll<io::Result<()>> {
        Poll::Ready(Ok(()))
    }
}

// What is reported of a reader that is dropped when this much of a stream has been read.
fn dropped(stream: &[u8], read: usize) -> Vec<Ended> {
    let log = Log::default();
    let mut reader = VettingRead::new(Pieces::of(stream, 4096), Limits::DEFAULT, log.clone());
    let mut out = vec![0; read];
    let _ = block_on(reader.read_exact(&mut out));
    drop(reader);
    log.ended.take()
}

#[test]
fn a_reader_that_is_dropped_is_reported_once() {
    // (the first message has 3144 bytes, and a piece 4096)
    for (read, messages, bytes, partial) in [(0, 0, 0, 0), (8, 1, 4096, 952), (3144, 1, 4096, 952)]
    {
        let ended = dropped(STREAM, read);
        assert_eq!((ended.len(), &ended[0].end), (1, &End::Dropped));
        assert_eq!((ended[0].messages, ended[0].bytes), (messages, bytes));
        assert_eq!(
            (ended[0].partial, &ended[0].to_string()[..]),
            (partial, "dropped")
        );
    }
    for (stream, reason) in [(CYCLE, false), (STREAM, true)] {
        let ended = dropped(stream, STREAM.len() + 1);
        assert_eq!((ended.len(), ended[0].end == End::Closed), (1, reason));
    }
}

#[test]
fn a_reader_that_a_panic_drops_is_reported() {
    let log = Log::default();
    let watch = log.clone();
    let caught = catch_unwind(AssertUnwindSafe(move || {
        let _reader = VettingRead::new(Pieces::of(STREAM, 100), Limits::DEFAULT, watch);
        // (as `panic!`, but nothing is printed)
        resume_unwind(Box::new(()));
    }));
    assert!(caught.is_err());
    let ended = log.ended.take();
    assert_eq!((ended.len(), &ended[0].end), (1, &End::Dropped));
}

#[test]
fn replies_that_are_unread_at_the_end_have_a_deadline() {
    let log = Log::default();
    let pieces = Pieces::of(CYCLE, 100);
    let (mut reader, mut writer, _) =
        vetting(pieces, Peer::default(), Limits::DEFAULT, log.clone());
    block_on(reader.read(&mut [0; 8])).expect_err("it is refused");
    let mut writing = Box::pin(writer.write_all(b"a reply"));
    assert!((&mut writing).now_or_never().is_none());
    assert!((&mut writing).now_or_never().is_none());
    let mut deadlines = log.unread.take();
    assert_eq!(deadlines.len(), 1);
    deadlines.remove(0).send(()).expect("it is waited for");
    let error = block_on(writing).expect_err("it is late");
    assert_eq!(error.kind(), io::ErrorKind::TimedOut);
    block_on(writer.write_all(b"another")).expect_err("it stays so");
    block_on(writer.close()).expect_err("it stays so");
    let ended = log.ended.take();
    assert!(ended.len() == 1 && matches!(ended[0].end, End::NotAccepted(_)));
}

#[test]
fn no_message_is_read_while_replies_are_unread() {
    let (log, peer) = (Log::default(), Peer::default());
    let pieces = Pieces {
        pieces: vec![STREAM.to_vec()],
        last: None,
    };
    let (mut reader, mut writer, _) = vetting(pieces, peer.clone(), Limits::DEFAULT, log.clone());
    let mut word = [0; 8];
    assert_eq!(block_on(reader.read(&mut word)).expect("a message"), 8);
    assert!(writer.write(b"a reply").now_or_never().is_none());
    // (the message that is accepted goes on, and no other one begins)
    let mut rest = vec![0; 3144 - 8];
    block_on(reader.read_exact(&mut rest)).expect("the message");
    assert!(reader.read(&mut word).now_or_never().is_none());
    peer.0.set(true);
    assert_eq!(block_on(writer.write(b"a reply")).expect("it is read"), 7);
    assert_eq!(block_on(reader.read(&mut word)).expect("a message"), 8);
    // (a deadline is dropped when the peer has read)
    assert!(log.unread.take().remove(0).is_canceled());

    peer.0.set(false);
    let mut rest = vec![0; 440 - 8];
    block_on(reader.read_exact(&mut rest)).expect("the message");
    assert!(writer.write(b"a reply").now_or_never().is_none());
    let mut reading = Box::pin(reader.read(&mut word));
    assert!((&mut reading).now_or_never().is_none());
    let mut deadlines = log.unread.take();
    deadlines.remove(0).send(()).expect("it is waited for");
    let error = block_on(writer.write(b"a reply")).expect_err("it is late");
    assert_eq!(error.kind(), io::ErrorKind::TimedOut);
    let error = block_on(reading).expect_err("so is the reader");
    assert_eq!(
        (error.kind(), &error.to_string()[..]),
        (io::ErrorKind::TimedOut, "replies unread")
    );
    let ended = log.ended.take();
    assert_eq!(
        (ended.len(), &ended[0].end, ended[0].messages),
        (1, &End::Unread, 2)
    );
}

#[test]
fn a_reader_of_capnp_gets_the_messages() {
    let limits = Limits::DEFAULT.with_depth(20);
    let mut vetting = VettingRead::new(Pieces::of(STREAM, 100), limits, no_time);
    let options = vetting.options();
    assert_eq!(options.nesting_limit, 64);
    let mut words = Vec::new();
    while let Some(message) = block_on(capnp_futures::serialize::try_read_message(
        &mut vetting,
        options,
    ))
    .expect("it is read")
    {
        let root = message
            .get_root::<capnp::any_pointer::Reader>()
            .expect("a root");
        words.push(root.target_size().expect("a size").word_count);
    }
    assert_eq!(words, [391, 53, 20, 60]);
    let mut stream = Cursor::new(CYCLE);
    let mut vetting = VettingRead::new(&mut stream, limits, no_time);
    let error = block_on(capnp_futures::serialize::read_message(
        &mut vetting,
        options,
    ));
    let error = error.err().expect("it is refused");
    let text = "Failed: refused DepthLimit at 0:0 pointers 21";
    assert_eq!(error.to_string(), text);
}
