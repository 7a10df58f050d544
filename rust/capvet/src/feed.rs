//! The messages of a stream whose bytes somebody else receives.

use crate::{
    frame_length, unpack_message, FrameError, Limits, MessageBuf, NotAccepted, UnpackMessageError,
    Unpacking,
};
use alloc::{vec, vec::Vec};
use core::fmt;
use core::mem::take;

/// The messages of a stream of which somebody else receives the bytes, in pieces of any size: it does no input and output.
///
/// [`push`](Feed::push) the bytes that have come. Then the iterator gives the messages that are whole, vetted, and ends for now:
/// `None` means that more bytes are needed. At the end of the stream call [`finish`](Feed::finish), and ask once more: the
/// iterator gives an error if the stream ends inside a message.
///
/// A refused message is an error with its bytes and its place in the stream, and the iterator goes on. One with a
/// [`VetError::Frame`](crate::VetError::Frame) is the last item: what follows is no frame within the limits.
///
/// It holds what has come and wasn't given out. Of a plain stream that grows with the bytes that come, and not with the length
/// that a table claims. For a message of a packed one it takes the length that is claimed, up to [`Limits::frame_bound`], and the
/// system gives that memory as it is written.
///
/// # Examples
///
/// ```
/// use capvet::{Feed, Limits};
///
/// let null = [0, 0, 0, 0, 1, 0, 0, 0, 0, 0, 0, 0, 0, 0, 0, 0];
/// let mut feed = Feed::new(Limits::DEFAULT);
/// feed.push(&null[..10]);
/// assert!(feed.next().is_none());
/// assert_eq!(feed.missing(), 6);
/// feed.push(&null[10..]);
/// feed.push(&null[..3]);
/// assert_eq!(feed.next().unwrap()?.bytes(), null);
/// assert!(feed.next().is_none());
/// feed.finish();
/// let cut = feed.next().unwrap().unwrap_err();
/// assert_eq!((cut.to_string().as_str(), cut.number, cut.offset), ("Truncated, 8 bytes are required", 1, 16));
/// # Ok::<(), capvet::NotAccepted>(())
/// ```
#[must_use = "it vets nothing before it is asked"]
pub struct Feed {
    limits: Limits,
    // what has come and wasn't consumed is `bytes[start..]`
    bytes: Vec<u8>,
    start: usize,
    // of a packed stream: what is unpacked of the next message, and how far
    unpacked: Option<(Vec<u8>, Unpacking)>,
    // how many bytes have to be there before the next message can be whole
    required: usize,
    number: u64,
    // how many bytes of the stream come before the next message, and how many are consumed
    offset: u64,
    consumed: u64,
    has_ended: bool,
    is_over: bool,
}

// (how many bytes are held, and not the bytes: they may be many)
impl fmt::Debug for Feed {
    fn fmt(&self, f: &mut fmt::Formatter<'_>) -> fmt::Result {
        f.debug_struct("Feed")
            .field("limits", &self.limits)
            .field("is_packed", &self.unpacked.is_some())
            .field("held", &self.partial().len())
            .field("number", &self.number)
            .field("is_over", &self.is_over)
            .finish_non_exhaustive()
    }
}

// The bytes of the first word of a table.
const FIRST: usize = 8;

impl Feed {
    /// The start of a stream (encoding: Serialization Over a Stream).
    pub const fn new(limits: Limits) -> Self {
        Self::of(limits, FIRST, None)
    }

    /// The start of a packed stream (encoding: Packing).
    pub const fn packed(limits: Limits) -> Self {
        Self::of(limits, 1, Some((Vec::new(), Unpacking::new())))
    }

    const fn of(limits: Limits, required: usize, unpacked: Option<(Vec<u8>, Unpacking)>) -> Self {
        Self {
            limits,
            bytes: Vec::new(),
            start: 0,
            unpacked,
            required,
            number: 0,
            offset: 0,
            consumed: 0,
            has_ended: false,
            is_over: false,
        }
    }

    /// Adds bytes that have come.
    pub fn push(&mut self, bytes: &[u8]) {
        self.space().extend_from_slice(bytes);
    }

    /// Says that no more bytes come.
    pub fn finish(&mut self) {
        self.has_ended = true;
    }

    /// The bytes that have come and are no message that was given out. Of a packed stream they are packed.
    #[must_use]
    pub fn partial(&self) -> &[u8] {
        &self.bytes[self.start..]
    }

    /// How many bytes have to come at least before there is a next message, after the iterator has given `None`.
    #[must_use]
    pub fn missing(&self) -> usize {
        self.required.saturating_sub(self.bytes.len() - self.start)
    }

    /// Whether the iterator has given its last item.
    #[must_use]
    pub const fn is_over(&self) -> bool {
        self.is_over
    }

    // Whether the stream is packed.
    #[cfg(feature = "std")]
    pub(crate) const fn is_packed(&self) -> bool {
        self.unpacked.is_some()
    }

    // Ends the iterator.
    #[cfg(feature = "std")]
    pub(crate) fn end(&mut self) {
        self.is_over = true;
    }

    // The bytes, to which those that come are added.
    pub(crate) fn space(&mut self) -> &mut Vec<u8> {
        self.bytes.drain(..take(&mut self.start));
        &mut self.bytes
    }

    // The next message whole. There is none if it needs more bytes.
    fn frame(&mut self) -> Result<Option<Vec<u8>>, FrameError> {
        match self.unpacked.take() {
            None => self.plain_frame(),
            Some((mut out, mut state)) => {
                let frame = self.unpacked_frame(&mut out, &mut state);
                self.unpacked = Some((out, state));
                frame
            }
        }
    }

    fn plain_frame(&mut self) -> Result<Option<Vec<u8>>, FrameError> {
        let bytes = &self.bytes[self.start..];
        let error = match frame_length(bytes, self.limits) {
            Ok(length) => {
                self.required = FIRST;
                self.consumed += length as u64;
                // (most often the message is all there is, and isn't copied)
                if self.bytes.len() == length {
                    return Ok(Some(take(&mut self.bytes)));
                }
                let frame = bytes[..length].to_vec();
                self.start += length;
                return Ok(Some(frame));
            }
            Err(error) => error,
        };
        // (a length above the addresses is refused by the system, when as many bytes have come)
        let required = error.required().ok_or(error)?;
        self.required = usize::try_from(required).unwrap_or(usize::MAX);
        match self.has_ended && !bytes.is_empty() {
            true => Err(error),
            false => Ok(None),
        }
    }

    // The next message of a packed stream.
    fn unpacked_frame(
        &mut self,
        out: &mut Vec<u8>,
        state: &mut Unpacking,
    ) -> Result<Option<Vec<u8>>, FrameError> {
        loop {
            let rest = &self.bytes[self.start..];
            let mut packed = rest;
            let unpacked = unpack_message(&mut packed, self.limits, out, state);
            let consumed = rest.len() - packed.len();
            (self.start, self.consumed) = (self.start + consumed, self.consumed + consumed as u64);
            return match unpacked {
                Ok(length) => {
                    let mut frame = take(out);
                    frame.truncate(length);
                    Ok(Some(frame))
                }
                Err(UnpackMessageError::BufferTooSmall { required }) => {
                    // (with 32 bits no buffer has more than 2 GiB)
                    let length = isize::try_from(required).ok();
                    let length = length.and_then(|it| usize::try_from(it).ok());
                    let words = required / 8;
                    let length = length.ok_or(FrameError::TooLarge { words })?;
                    // (zeroed memory that nobody writes costs nothing)
                    let mut longer = vec![0; length];
                    let written = state.written();
                    longer[..written].copy_from_slice(&out[..written]);
                    *out = longer;
                    continue;
                }
                Err(UnpackMessageError::Truncated { required }) if self.has_ended => {
                    let required = required as u64;
                    Err(FrameError::Truncated { required })
                }
                Err(UnpackMessageError::Frame(error)) => Err(error),
                Err(error) => {
                    self.required = error.required().unwrap_or(1);
                    Ok(None)
                }
            };
        }
    }

    // A message that isn't accepted, with its place in the stream.
    fn placed(&self, mut error: NotAccepted) -> NotAccepted {
        (error.number, error.offset) = (self.number, self.offset);
        error
    }

    // What had come of a broken frame.
    fn broken(&mut self, error: FrameError) -> NotAccepted {
        let unvetted = match &mut self.unpacked {
            None => self.space().split_off(0),
            Some((out, state)) => {
                out.truncate(state.written());
                take(out)
            }
        };
        self.is_over = true;
        self.placed(NotAccepted::of(error.into(), unvetted, self.limits))
    }
}

impl Iterator for Feed {
    type Item = Result<MessageBuf, NotAccepted>;

    fn next(&mut self) -> Option<Self::Item> {
        if self.is_over {
            return None;
        }
        match self.frame() {
            Ok(Some(frame)) => {
                let found = MessageBuf::vet(frame, self.limits);
                let found = found.map_err(|error| self.placed(error));
                (self.number, self.offset) = (self.number + 1, self.consumed);
                Some(found)
            }
            Ok(None) => {
                self.is_over = self.has_ended;
                None
            }
            Err(error) => Some(Err(self.broken(error))),
        }
    }
}

#[cfg(all(test, feature = "std"))]
mod tests {
    use super::*;
    use crate::{messages, pack_message};

    const STREAM: &[u8] = include_bytes!("../../../examples/stream-of-four.bin");
    const CYCLE: &[u8] = include_bytes!("../../../examples/cycle.bin");

    // What a feed gives of a stream in pieces of this length, with the texts of errors.
    fn given(mut feed: Feed, stream: &[u8], piece: usize) -> Vec<Result<Vec<u8>, String>> {
        let mut items = Vec::new();
        for bytes in stream.chunks(piece) {
            feed.push(bytes);
            items.extend(feed.by_ref());
            assert!(feed.is_over() || feed.missing() > 0);
        }
        feed.finish();
        items.extend(feed.by_ref());
        assert!(feed.is_over() && feed.next().is_none());
        let text = |item: Result<MessageBuf, NotAccepted>| {
            item.map(MessageBuf::into_bytes)
                .map_err(|it| it.to_string())
        };
        items.into_iter().map(text).collect()
    }

    #[test]
    fn pieces_of_each_size_give_the_messages() {
        let whole = [STREAM, CYCLE, STREAM].concat();
        let packed: Vec<u8> = messages(STREAM, Limits::DEFAULT)
            .flat_map(|it| pack_message(it.expect("accepted").bytes()).expect("a frame"))
            .collect();
        for piece in [1, 7, 8, 100, 3144, 5000, whole.len()] {
            for length in [whole.len(), whole.len() - 1, 3144, 3145, 3143, 7, 0] {
                let cut = &whole[..length];
                let expected: Vec<_> = messages(cut, Limits::DEFAULT)
                    .map(|item| {
                        item.map(|it| it.bytes().to_vec())
                            .map_err(|it| it.to_string())
                    })
                    .collect();
                let found = given(Feed::new(Limits::DEFAULT), cut, piece);
                assert_eq!(found, expected, "{piece} {length}");
            }
            let found = given(Feed::packed(Limits::DEFAULT), &packed, piece);
            let found: Vec<_> = found.into_iter().map(|it| it.expect("accepted")).collect();
            assert_eq!(found.concat(), STREAM);
            let cut = given(
                Feed::packed(Limits::DEFAULT),
                &packed[..packed.len() - 1],
                piece,
            );
            assert_eq!(cut.len(), 4);
            let error = cut[3].as_ref().expect_err("it is cut");
            assert!(error.starts_with("Truncated"), "{error}");
        }
    }

    #[test]
    fn what_is_missing_is_known() {
        let mut feed = Feed::new(Limits::DEFAULT);
        let (mut read, mut count) = (0, 0);
        while count < 4 {
            match feed.next() {
                Some(message) => count += u32::from(message.is_ok()),
                None => {
                    let missing = feed.missing();
                    assert!(missing > 0 && read + missing <= STREAM.len());
                    feed.push(&STREAM[read..read + missing]);
                    read += missing;
                }
            }
        }
        assert!(feed.next().is_none() && feed.partial().is_empty());
        assert!(format!("{feed:?}").contains("number: 4"));
    }

    #[test]
    fn nothing_is_given_after_a_broken_frame() {
        let mut feed = Feed::new(Limits::DEFAULT);
        feed.push(&[0, 2, 0, 0, 0, 0, 0, 0]);
        let error = feed.next().expect("an item").expect_err("it is broken");
        assert_eq!(error.to_string(), "TooManySegments 513");
        assert!(format!("{error:?}").contains("unvetted: 8"));
        feed.push(STREAM);
        assert!(feed.next().is_none() && feed.is_over());
    }
}
