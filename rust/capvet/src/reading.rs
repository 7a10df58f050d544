//! The messages of a stream that is read.

use crate::{Feed, Limits, MessageBuf, NotAccepted};
use std::fmt;
use std::io::{self, ErrorKind, Read};
use std::iter::FusedIterator;

/// The error of a message of a stream that is read.
#[derive(Debug)]
#[non_exhaustive]
pub enum ReadError {
    /// The stream can't be read.
    Io(
        /// The reason.
        io::Error,
    ),
    /// The message isn't accepted.
    NotAccepted(
        /// The reason, the bytes, and the place in the stream.
        NotAccepted,
    ),
}

impl fmt::Display for ReadError {
    fn fmt(&self, f: &mut fmt::Formatter<'_>) -> fmt::Result {
        match self {
            Self::Io(error) => error.fmt(f),
            Self::NotAccepted(error) => error.fmt(f),
        }
    }
}

/// An iterator over the messages of a stream; see [`read_messages`].
#[derive(Debug)]
#[must_use = "an iterator reads nothing before it is asked"]
pub struct ReadMessages<R> {
    reader: R,
    feed: Feed,
}

/// Returns an iterator over the messages that `reader` gives, one after the other (encoding: Serialization Over a Stream). It
/// vets each one as it has come.
///
/// It asks the reader for no byte after the message. So over a connection each message is there as soon as it is whole,
/// whatever has come of the next one. It reads a few times for a message: a [`std::io::BufReader`] makes that cheap.
///
/// It holds one message. Its memory grows with the bytes that come, and not with the length that a table claims.
///
/// # Errors
///
/// An item is an error in these cases.
///
/// - [`ReadError::NotAccepted`] with [`VetError::Refused`](crate::VetError::Refused): the message is refused. The iterator goes on
///   with the next one.
/// - [`ReadError::NotAccepted`] with [`VetError::Frame`](crate::VetError::Frame): the stream ends inside a message, or goes on with what is no frame
///   within the limits. This is the last item.
/// - [`ReadError::Io`]: the reader fails. For [`WouldBlock`](ErrorKind::WouldBlock) and [`TimedOut`](ErrorKind::TimedOut) what
///   came before is kept, and the next call reads on. So a time limit of a socket cuts no message. Any other error is the last
///   item. A reader that is interrupted is asked again, without an error.
///
/// If the stream ends between two messages, the iterator ends without an error.
///
/// # Examples
///
/// ```
/// use capvet::{Limits, ReadError};
///
/// let null = [0, 0, 0, 0, 1, 0, 0, 0, 0, 0, 0, 0, 0, 0, 0, 0];
/// let cycle = [0, 0, 0, 0, 1, 0, 0, 0, 0xfc, 0xff, 0xff, 0xff, 0, 0, 1, 0];
/// let stream = [&null[..], &cycle, &null, &null[..10]].concat();
///
/// let mut messages = capvet::read_messages(&stream[..], Limits::DEFAULT);
/// assert_eq!(messages.next().unwrap()?.bytes(), null);
/// match messages.next() {
///     Some(Err(ReadError::NotAccepted(refused))) => {
///         assert_eq!(refused.to_string(), "refused DepthLimit at 0:0 pointers 65");
///         assert_eq!((refused.number, refused.offset, &refused.unvetted[..]), (1, 16, &cycle[..]));
///         assert!(refused.path().is_some());
///     }
///     other => panic!("{other:?}"),
/// }
/// assert_eq!(messages.next().unwrap()?.report().pointers, 1);
/// let cut = messages.next().unwrap().unwrap_err();
/// assert_eq!(cut.to_string(), "Truncated, 16 bytes are required");
/// assert!(messages.next().is_none());
/// # Ok::<(), ReadError>(())
/// ```
pub const fn read_messages<R: Read>(reader: R, limits: Limits) -> ReadMessages<R> {
    let feed = Feed::new(limits);
    ReadMessages { reader, feed }
}

/// Returns an iterator over the messages of the packed stream that `reader` gives (encoding: Packing). It vets each one as it
/// has come.
///
/// It reads up to 4096 bytes at a time, but asks the reader for no more while a whole message is there. So over a connection
/// each message is there as soon as it is whole.
///
/// It holds one message. The length that a table claims is reserved, up to [`Limits::frame_bound`], and the system gives the
/// memory as it is written.
///
/// # Errors
///
/// Those of [`read_messages`]. In [`FrameError::Truncated`](crate::FrameError::Truncated) `required` is about packed bytes.
///
/// # Examples
///
/// ```
/// use capvet::{Limits, ReadError};
///
/// // The null pointer, twice.
/// let stream = [0x10, 1, 0, 0, 0x10, 1, 0, 0];
/// for message in capvet::read_packed_messages(&stream[..], Limits::DEFAULT) {
///     assert_eq!(message?.report().pointers, 1);
/// }
/// # Ok::<(), ReadError>(())
/// ```
pub const fn read_packed_messages<R: Read>(reader: R, limits: Limits) -> ReadMessages<R> {
    let feed = Feed::packed(limits);
    ReadMessages { reader, feed }
}

// The most bytes of a packed stream that are read at a time.
const PIECE: usize = 4096;

impl<R> ReadMessages<R> {
    /// The bytes that have come of the next message, packed ones of a packed stream.
    #[must_use]
    pub fn partial(&self) -> &[u8] {
        self.feed.partial()
    }

    /// The reader. What has come of further messages is dropped.
    #[must_use]
    pub fn into_inner(self) -> R {
        self.reader
    }
}

impl<R: Read> ReadMessages<R> {
    // Reads what is missing of the next message. Of a packed stream it reads some bytes.
    fn receive(&mut self) -> io::Result<()> {
        let has_ended = match self.feed.is_packed() {
            true => receive_some(&mut self.reader, self.feed.space())? == 0,
            false => {
                let missing = self.feed.missing();
                let mut rest = self.reader.by_ref().take(missing as u64);
                rest.read_to_end(self.feed.space())? < missing
            }
        };
        if has_ended {
            self.feed.finish();
        }
        Ok(())
    }
}

// Reads once, also after a signal.
fn receive_some(reader: &mut impl Read, bytes: &mut Vec<u8>) -> io::Result<usize> {
    let mut piece = [0; PIECE];
    loop {
        match reader.read(&mut piece) {
            Err(error) if error.kind() == ErrorKind::Interrupted => {}
            result => {
                let count = result?;
                bytes.extend_from_slice(&piece[..count]);
                return Ok(count);
            }
        }
    }
}

impl<R: Read> Iterator for ReadMessages<R> {
    type Item = Result<MessageBuf, ReadError>;

    fn next(&mut self) -> Option<Self::Item> {
        loop {
            if let Some(item) = self.feed.next() {
                return Some(item.map_err(ReadError::NotAccepted));
            }
            if self.feed.is_over() {
                return None;
            }
            if let Err(error) = self.receive() {
                if !matches!(error.kind(), ErrorKind::WouldBlock | ErrorKind::TimedOut) {
                    self.feed.end();
                }
                return Some(Err(ReadError::Io(error)));
            }
        }
    }
}

impl<R: Read> FusedIterator for ReadMessages<R> {}

/// A reader of the bytes of accepted messages alone: bytes in, vetted bytes out. It goes between a connection and what reads
/// messages from a [`Read`].
///
/// The bytes of a message come only after all of it is vetted, and those of a refused message never come. Reading fails from then
/// on, as it does at a stream that is cut or broken. [`refused`](VettedReader::refused) says more. A time limit of the reader
/// below ends nothing: no byte is lost.
///
/// It holds one message. It asks the reader for no byte after the message.
///
/// # Examples
///
/// ```
/// use capvet::{Limits, VettedReader};
/// use std::io::Read;
///
/// let null = [0, 0, 0, 0, 1, 0, 0, 0, 0, 0, 0, 0, 0, 0, 0, 0];
/// let cycle = [0, 0, 0, 0, 1, 0, 0, 0, 0xfc, 0xff, 0xff, 0xff, 0, 0, 1, 0];
/// let stream = [null, cycle, null].concat();
/// let mut reader = VettedReader::new(&stream[..], Limits::DEFAULT);
/// let mut bytes = Vec::new();
/// let error = reader.read_to_end(&mut bytes).unwrap_err();
/// assert_eq!(error.to_string(), "refused DepthLimit at 0:0 pointers 65");
/// assert_eq!(bytes, null);
/// assert_eq!(reader.refused().unwrap().offset, 16);
/// ```
pub struct VettedReader<R> {
    messages: ReadMessages<R>,
    // what is passed on is `message[start..]`
    message: Vec<u8>,
    start: usize,
    end: Option<End>,
}

// (how many bytes are held, and not the bytes: they may be many)
impl<R: fmt::Debug> fmt::Debug for VettedReader<R> {
    fn fmt(&self, f: &mut fmt::Formatter<'_>) -> fmt::Result {
        f.debug_struct("VettedReader")
            .field("messages", &self.messages)
            .field("held", &(self.message.len() - self.start))
            .field("end", &self.end)
            .finish()
    }
}

// Why nothing more is passed on.
#[derive(Debug)]
enum End {
    Refused(NotAccepted),
    Failed(ErrorKind),
}

impl<R: Read> VettedReader<R> {
    /// Makes a reader of the messages of another one.
    pub const fn new(reader: R, limits: Limits) -> Self {
        Self {
            messages: read_messages(reader, limits),
            message: Vec::new(),
            start: 0,
            end: None,
        }
    }

    /// The message that isn't accepted, if there was one.
    #[must_use]
    pub const fn refused(&self) -> Option<&NotAccepted> {
        match &self.end {
            Some(End::Refused(error)) => Some(error),
            _ => None,
        }
    }

    // Receives the next message. There is none at the end of the stream.
    fn receive(&mut self) -> io::Result<()> {
        match &self.end {
            Some(End::Refused(refused)) => return Err(refused.error.into()),
            Some(End::Failed(kind)) => return Err((*kind).into()),
            None => {}
        }
        match self.messages.next() {
            None => Ok(()),
            Some(Ok(message)) => {
                (self.message, self.start) = (message.into_bytes(), 0);
                Ok(())
            }
            Some(Err(ReadError::NotAccepted(refused))) => {
                let error = refused.error.into();
                self.end = Some(End::Refused(refused));
                Err(error)
            }
            Some(Err(ReadError::Io(error))) => {
                if self.messages.feed.is_over() {
                    self.end = Some(End::Failed(error.kind()));
                }
                Err(error)
            }
        }
    }
}

impl<R: Read> Read for VettedReader<R> {
    fn read(&mut self, out: &mut [u8]) -> io::Result<usize> {
        if out.is_empty() {
            return Ok(0);
        }
        if self.start == self.message.len() {
            // (memory of a large message isn't kept)
            (self.message, self.start) = (Vec::new(), 0);
            self.receive()?;
        }
        let count = (&self.message[self.start..]).read(out)?;
        self.start += count;
        Ok(count)
    }
}

#[cfg(test)]
mod tests {
    use super::*;
    use crate::{frame_length, messages, pack_message};
    use std::io::Write;
    use std::os::unix::net::UnixStream;
    use std::time::Duration;

    const STREAM: &[u8] = include_bytes!("../../../examples/stream-of-four.bin");
    const MANY_SEGMENTS: &[u8] = include_bytes!("../../../examples/contacts-many-segments.bin");
    const CYCLE: &[u8] = include_bytes!("../../../examples/cycle.bin");

    // The messages of a stream, packed one by one.
    fn packed(stream: &[u8]) -> Vec<Vec<u8>> {
        let mut rest = stream;
        let mut texts = Vec::new();
        while let Ok(length) = frame_length(rest, Limits::DEFAULT) {
            texts.push(pack_message(&rest[..length]).expect("a frame"));
            rest = &rest[length..];
        }
        texts
    }

    // The items of an iterator, with the texts of errors.
    fn texts(
        items: impl Iterator<Item = Result<MessageBuf, ReadError>>,
    ) -> Vec<Result<Vec<u8>, String>> {
        items
            .map(|item| {
                item.map(MessageBuf::into_bytes)
                    .map_err(|it| it.to_string())
            })
            .collect()
    }

    #[test]
    fn a_stream_that_is_read_has_the_items_of_its_bytes() {
        let whole = [STREAM, CYCLE, MANY_SEGMENTS].concat();
        for length in (0..whole.len()).step_by(7).chain([whole.len()]) {
            let cut = &whole[..length];
            let expected: Vec<_> = messages(cut, Limits::DEFAULT)
                .map(|item| {
                    item.map(|it| it.bytes().to_vec())
                        .map_err(|it| it.to_string())
                })
                .collect();
            assert_eq!(
                texts(read_messages(cut, Limits::DEFAULT)),
                expected,
                "{length}"
            );
        }
    }

    #[test]
    fn a_packed_stream_has_the_items_of_its_words() {
        let whole = [STREAM, CYCLE, MANY_SEGMENTS].concat();
        let expected = texts(read_messages(&whole[..], Limits::DEFAULT));
        let stream = packed(&whole).concat();
        assert_eq!(
            texts(read_packed_messages(&stream[..], Limits::DEFAULT)),
            expected
        );
        for length in (1..stream.len()).step_by(7) {
            let mut found = texts(read_packed_messages(&stream[..length], Limits::DEFAULT));
            if matches!(found.last(), Some(Err(text)) if text.starts_with("Truncated")) {
                found.pop();
            }
            assert!(
                found.len() < expected.len() && found == expected[..found.len()],
                "{length}"
            );
        }
    }

    // A reader that gives a byte at a time.
    #[derive(Debug)]
    struct Slow<'b>(&'b [u8]);

    impl Read for Slow<'_> {
        fn read(&mut self, out: &mut [u8]) -> io::Result<usize> {
            let most = out.len().min(1);
            self.0.read(&mut out[..most])
        }
    }

    #[test]
    fn a_slow_reader_has_the_same_items() {
        let whole = [STREAM, CYCLE, &STREAM[..100]].concat();
        let plain = texts(read_messages(&whole[..], Limits::DEFAULT));
        assert_eq!(texts(read_messages(Slow(&whole), Limits::DEFAULT)), plain);
        let text = [packed(STREAM).concat(), packed(CYCLE).concat(), vec![7]].concat();
        let expected = texts(read_packed_messages(&text[..], Limits::DEFAULT));
        let slow = read_packed_messages(Slow(&text), Limits::DEFAULT);
        assert_eq!((texts(slow), expected.len()), (expected, 6));
    }

    #[test]
    fn a_message_comes_before_the_rest_of_the_next() {
        let limit = Some(Duration::from_secs(180));
        let first = &STREAM[..3144];
        let text = packed(STREAM).concat();
        let length = packed(STREAM)[0].len();
        for (stream, length, is_packed) in [(STREAM, first.len(), false), (&text, length, true)] {
            for more in [0, 1, 7, 8, 100] {
                let (mut peer, reader) = UnixStream::pair().expect("a pair of sockets");
                reader.set_read_timeout(limit).expect("a time limit");
                peer.write_all(&stream[..length + more])
                    .expect("it is sent");
                // (the rest doesn't come before the message is there)
                let found = if is_packed {
                    read_packed_messages(reader, Limits::DEFAULT).next()
                } else {
                    read_messages(reader, Limits::DEFAULT).next()
                };
                assert_eq!(
                    found.expect("an item").expect("accepted").bytes(),
                    first,
                    "{more}"
                );
            }
        }
    }

    #[test]
    fn a_time_limit_cuts_no_message() {
        for is_packed in [false, true] {
            let text = packed(STREAM).concat();
            let stream = if is_packed { &text } else { STREAM };
            let (mut peer, reader) = UnixStream::pair().expect("a pair of sockets");
            reader.set_nonblocking(true).expect("it doesn't block");
            let mut items: Box<dyn Iterator<Item = _>> = if is_packed {
                Box::new(read_packed_messages(reader, Limits::DEFAULT))
            } else {
                Box::new(read_messages(reader, Limits::DEFAULT))
            };
            let mut found = Vec::new();
            for piece in stream.chunks(100) {
                peer.write_all(piece).expect("it is sent");
                loop {
                    match items.next().expect("the stream goes on") {
                        Ok(message) => found.push(message.into_bytes()),
                        Err(ReadError::Io(error)) => {
                            assert_eq!(error.kind(), io::ErrorKind::WouldBlock);
                            break;
                        }
                        Err(error) => panic!("{error}"),
                    }
                }
            }
            drop(peer);
            assert!(items.next().is_none());
            assert!(items.next().is_none());
            assert_eq!((found.len(), found.concat()), (4, STREAM.to_vec()));
        }
    }

    #[test]
    fn a_claim_takes_little_memory() {
        // A table of a segment of 8,388,608 words, and one word of it.
        let claim = [0, 0, 0, 0, 0, 0, 0x80, 0, 0, 0, 0, 0, 0, 0, 0, 0];
        let mut messages = read_messages(&claim[..], Limits::DEFAULT);
        let cut = messages.next().expect("an item").expect_err("it is cut");
        assert_eq!(cut.to_string(), "Truncated, 67108872 bytes are required");
        let refused = not_accepted(cut);
        assert!(refused.unvetted == claim && refused.unvetted.capacity() < 4096);
        let error = io::Error::from(refused);
        assert_eq!(error.kind(), io::ErrorKind::UnexpectedEof);
        let limits = Limits::DEFAULT.with_message_words(1000);
        let error = read_messages(&claim[..], limits).next().expect("an item");
        assert_eq!(
            error.expect_err("too large").to_string(),
            "TooLarge 8388608"
        );
    }

    // The message of an error.
    fn not_accepted(error: ReadError) -> NotAccepted {
        match error {
            ReadError::NotAccepted(error) => error,
            ReadError::Io(error) => panic!("{error}"),
        }
    }

    #[test]
    fn a_refused_message_has_its_bytes_and_its_place() {
        let stream = [STREAM, CYCLE, MANY_SEGMENTS, &STREAM[..100]].concat();
        let parts = [packed(STREAM).concat(), packed(CYCLE).concat()];
        let text = [&parts.concat()[..], &packed(MANY_SEGMENTS)[0], &[0x10]].concat();
        for (bytes, offset, end, is_packed) in [
            (&stream, STREAM.len(), stream.len() - 100, false),
            (&text, parts[0].len(), text.len() - 1, true),
        ] {
            let errors = match is_packed {
                true => read_packed_messages(&bytes[..], Limits::DEFAULT),
                false => read_messages(&bytes[..], Limits::DEFAULT),
            };
            let errors: Vec<_> = errors.filter_map(Result::err).map(not_accepted).collect();
            let places: Vec<_> = errors.iter().map(|it| (it.number, it.offset)).collect();
            assert_eq!(places, [(4, offset as u64), (6, end as u64)]);
            assert_eq!(errors[0].unvetted, CYCLE);
            let path = errors[0].path().expect("it names a pointer");
            assert_eq!(path.to_string(), "/p0".repeat(64));
            let lines = errors[0].explain().to_string();
            let eight = "/p0".repeat(8);
            let shown = format!("  path {eight}/.. 48 steps ..{eight}\n");
            assert!(lines.starts_with(&shown), "{lines}");
            let cut = (&errors[1].unvetted[..], errors[1].path());
            assert_eq!(
                cut,
                (if is_packed { &[][..] } else { &STREAM[..100] }, None)
            );
            let lines = errors[1].explain().to_string();
            let expected = if is_packed {
                "is empty"
            } else {
                "ends inside the message"
            };
            assert_eq!(lines, format!("  reason the input {expected}\n"));
        }
    }

    // Each item is an error that stays, as for a folder that is opened as a file.
    struct Failing(ErrorKind, usize);

    impl Read for Failing {
        fn read(&mut self, _: &mut [u8]) -> io::Result<usize> {
            self.1 += 1;
            Err(self.0.into())
        }
    }

    #[test]
    fn an_error_that_stays_is_the_last_item() {
        let folder = std::fs::File::open(env!("CARGO_MANIFEST_DIR")).expect("a folder");
        assert_eq!(read_messages(folder, Limits::DEFAULT).count(), 1);
        for (kind, count) in [
            (ErrorKind::Other, 1),
            (ErrorKind::ConnectionReset, 1),
            (ErrorKind::WouldBlock, 10),
            (ErrorKind::TimedOut, 10),
        ] {
            for mut messages in [
                read_messages(Failing(kind, 0), Limits::DEFAULT),
                read_packed_messages(Failing(kind, 0), Limits::DEFAULT),
            ] {
                assert_eq!(messages.by_ref().take(10).count(), count);
                assert_eq!(messages.into_inner().1, count);
            }
        }
    }

    #[test]
    fn bytes_of_accepted_messages_alone_come_through() {
        let whole = [STREAM, MANY_SEGMENTS].concat();
        let mut out = Vec::new();
        let mut reader = VettedReader::new(&whole[..], Limits::DEFAULT);
        reader.read_to_end(&mut out).expect("all are accepted");
        assert!(out == whole && reader.refused().is_none());
        let mut reader = VettedReader::new(Slow(STREAM), Limits::DEFAULT);
        assert_eq!(reader.read(&mut [0; 8]).expect("a word"), 8);
        assert!(format!("{reader:?}").contains("held: 3136"));
        for (stream, text, kind) in [
            (
                [STREAM, CYCLE, STREAM].concat(),
                "refused DepthLimit at 0:0 pointers 65",
                ErrorKind::InvalidData,
            ),
            (
                [STREAM, &STREAM[..9]].concat(),
                "Truncated, 3144 bytes are required",
                ErrorKind::UnexpectedEof,
            ),
        ] {
            let mut reader = VettedReader::new(&stream[..], Limits::DEFAULT);
            let mut out = Vec::new();
            for _ in 0..3 {
                let error = reader.read_to_end(&mut out).expect_err("it is refused");
                assert_eq!((error.kind(), &error.to_string()[..]), (kind, text));
                assert_eq!(out, STREAM);
            }
            let refused = reader.refused().expect("it is refused");
            assert_eq!((refused.number, refused.offset), (4, STREAM.len() as u64));
        }
    }

    #[test]
    fn a_reader_that_fails_goes_on_or_not() {
        for (kind, calls) in [(ErrorKind::WouldBlock, 4), (ErrorKind::Other, 1)] {
            let mut reader = VettedReader::new(Failing(kind, 0), Limits::DEFAULT);
            for _ in 0..4 {
                let error = reader.read(&mut [0; 8]).expect_err("it fails");
                assert_eq!(error.kind(), kind);
            }
            assert_eq!(reader.read(&mut []).expect("nothing is asked for"), 0);
            assert_eq!(reader.messages.into_inner().1, calls);
        }
    }
}
